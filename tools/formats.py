"""What the tools share: the grammars of images, scripts and reports, read apart from the program, and the words for what stands in them."""
import collections, itertools, struct, sys

PAGES, PAGE_BYTES, REGIONS, CORES, REQUESTS, ALL_REQUESTS = 512, 4096, 512, 64, 128, 2048
FILE_BYTES = 16_777_216

CODES = {
    0x0: 'success', 0x80000000: 'incomplete: call again', 0x80000001: 'unsupported protocol', 0x80000002: 'unsupported call',
    0x80000003: 'invalid address', 0x80000005: 'invalid parameter', 0x80000007: 'busy', 0x80001010: 'the page was unchanged',
}
CALLS = ['remap', 'pvalidate', 'create', 'delete', 'deposit', 'withdraw', 'query']
KINDS = ['write', 'call', 'exit', 'read', 'adjust', 'share', 'assign']
REGISTERS = ['rcx', 'rdx', 'r8', 'r9']


class Told(Exception):
    """An error that is told in words and ends a tool."""


def run(main):
    """Runs a tool: what is wrong is one line on standard error and status 1, whatever it is."""
    name = sys.argv[0].rsplit('/', 1)[-1]
    try:
        main(sys.argv[1:])
        sys.stdout.flush()
    except Told as error:
        sys.exit(f'{name}: {error}')
    except BrokenPipeError:
        sys.stdout = None
        sys.exit(0)
    except KeyboardInterrupt:
        sys.exit(130)
    except OSError as error:
        sys.exit(f'{name}: {error.filename or "file"}: {error.strerror}')
    except UnicodeDecodeError:
        sys.exit(f'{name}: a file is not of text')


def usage(doc, words):
    """Prints the page of a tool where it is asked for; without words it goes to standard error, with status 2."""
    if words in (['--help'], ['-h']):
        print(doc.strip())
        sys.exit(0)
    if not words:
        print(doc.strip(), file=sys.stderr)
        sys.exit(2)


def text_of(path):
    if path == '-':
        return sys.stdin.read()
    with open(path, encoding='utf-8', errors='surrogateescape', newline='\n') as file:
        return file.read()


def bytes_of(path):
    if path == '-':
        return sys.stdin.buffer.read()
    with open(path, 'rb') as file:
        return file.read()


def code_name(code):
    """The name of a result code."""
    if code in CODES:
        return CODES[code]
    if 0x80001000 <= code < 0x80001010:
        return f'PVALIDATE answered {code - 0x80001000}'
    return ''


def hex_in(field):
    """The number of a field as images and reports write it, or None."""
    digits = field[2:]
    if field[:2] == '0x' and 1 <= len(digits) <= 16 and all(c in '0123456789abcdefABCDEF' for c in digits):
        return int(digits, 16)
    return None


def fields_of(line):
    """The fields of a line: one or more spaces stand between two of them."""
    fields, at = [], 0
    while True:
        end = line.find(' ', at)
        if end < 0:
            return fields + [line[at:]]
        fields.append(line[at:end])
        at = end
        while at < len(line) and line[at] == ' ':
            at += 1


# IMAGES

Row = collections.namedtuple('Row', 'owner recorded state rights bit size')
OWNERS, STATES = ('guest', 'module', 'pool', 'vmsa'), ('shared', 'assigned', 'valid')
BLANK = ('guest', 'shared', 0)


class Refusal(Exception):
    """The first line of an image that fails: its number, or 0 for the whole file, its kind, and the cause in words."""

    def __init__(self, kind, cause, line=0):
        super().__init__(cause)
        self.kind, self.cause, self.line = kind, cause, line


class Image:
    """An image as its text says it."""

    def __init__(self):
        self.format, self.regions, self.levels, self.features, self.ghcb = 1, 0, [], 0, 0
        self.pages, self.accepted, self.large, self.accepts = {}, {}, [], []
        self.cores, self.blocks, self.split, self.announce, self.words = [], [], False, False, {}
        self.faults, self.host = [], []

    def page(self, number):
        return self.pages.get(number, BLANK)


def count(fields, *wanted):
    if len(fields) not in wanted:
        need = ' or '.join(str(n - 1) for n in wanted)
        raise Refusal('line', f"'{fields[0]}' has {len(fields) - 1} field{'s' * (len(fields) != 2)} behind it, and needs {need}")


def number(fields, at):
    found = hex_in(fields[at])
    if found is None:
        raise Refusal('number', f"'{fields[at]}' is no number: write 0x and 1 to 16 hexadecimal digits")
    return found


def within(value, least, most, what):
    if not least <= value <= most:
        raise Refusal('range', f'{what} is {said(value)}, and has to be {least:#x} to {most:#x}')


def said(value):
    """A number in hexadecimal and decimal."""
    return f'{value:#x} ({value})' if value > 9 else f'{value:#x}'


def one_of(field, words, what):
    if field not in words:
        raise Refusal('line', f"the {what} '{field}' is none: {', '.join(words)}")
    return field


def is_word(fields, at, word):
    if fields[at] != word:
        raise Refusal('line', f"'{fields[at]}' stands where '{word}' belongs")


def page_in(image, value, what):
    within(value, 0, PAGES * image.regions - 1, what)


def span_in(image, first, many):
    page_in(image, first, 'the first page')
    if many == 0:
        raise Refusal('range', 'the count is 0')
    if first + many > PAGES * image.regions:
        raise Refusal('range', f'pages {first:#x} to {first + many - 1:#x} run past the map, whose last page is {PAGES * image.regions - 1:#x}')
    return range(first, first + many)


def multiple(value, unit, what):
    if value % unit:
        raise Refusal('range', f'{what} {value:#x} is no multiple of {unit}')


def gpa_in(image, value, unit, what):
    multiple(value, unit, what)
    if value // PAGE_BYTES >= PAGES * image.regions:
        raise Refusal('range', f'{what} {value:#x} is past the map, which ends at {PAGES * PAGE_BYTES * image.regions:#x}')


HEAD = ['svsm-image', 'regions', 'vmpl', 'features', 'ghcb']


def head_line(image, at, fields):
    if fields[0] != HEAD[at]:
        raise Refusal('missing', f"'{HEAD[at]}' has to be line {at + 1} of the first five, and '{fields[0]}' stands there")
    if at == 0:
        if fields not in (['svsm-image', '1'], ['svsm-image', '2']):
            raise Refusal('missing', "the first line is 'svsm-image 1' or 'svsm-image 2', with a plain digit")
        image.format = int(fields[1])
        return
    count(fields, 3 if at == 2 and image.format == 2 else 2)
    values = [number(fields, k) for k in range(1, len(fields))]
    if at == 1:
        within(values[0], 1, REGIONS, 'the number of regions')
        image.regions = values[0]
    elif at == 2:
        for value in values:
            within(value, 1, 3, 'a level')
        if len(values) == 2 and values[0] == values[1]:
            raise Refusal('range', 'the two levels are equal')
        image.levels = values
    elif at == 3:
        image.features = values[0]
    else:
        page_in(image, values[0], 'the GHCB page')
        image.ghcb = values[0]


def range_line(image, fields):
    count(fields, 6)
    owner, state = one_of(fields[3], OWNERS, 'owner'), one_of(fields[4], STATES, 'state')
    first, many, rights = (number(fields, k) for k in (1, 2, 5))
    pages = span_in(image, first, many)
    within(rights, 0, 0xfff, 'the word of rights')
    for page in pages:
        if page in image.pages:
            raise Refusal('overlap', f'page {page:#x} stands in an earlier range')
    if rights and (owner, state) != ('guest', 'valid'):
        raise Refusal('state', 'only valid pages of the guest have rights')
    if owner in ('pool', 'vmsa') and state != 'valid':
        raise Refusal('state', f'a page of owner {owner} has to be valid')
    for page in pages:
        image.pages[page] = (owner, state, rights)


def accept_line(image, fields):
    count(fields, 3)
    pages = span_in(image, number(fields, 1), number(fields, 2))
    for page in pages:
        if page in image.accepted:
            raise Refusal('overlap', f'page {page:#x} stands in an earlier accept line')
        image.accepted[page] = True
    image.accepts.append((pages.start, len(pages)))


def core_line(image, fields):
    kind = fields[2] if len(fields) > 2 else ''
    if kind not in ('vmsa', 'parked'):
        raise Refusal('line', "behind the APIC id stands 'vmsa' or 'parked'")
    base = 3 if kind == 'parked' else 6
    if len(fields) != base + 2 * (image.format == 2):
        form = 'core APIC parked' if kind == 'parked' else 'core APIC vmsa GPA caa GPA'
        raise Refusal('line', f"in format {image.format} the line is '{form}{' vmpl U' * (image.format == 2)}'")
    if kind == 'vmsa':
        is_word(fields, 4, 'caa')
    if image.format == 2:
        is_word(fields, base, 'vmpl')
    apic = number(fields, 1)
    seat = (number(fields, 3), number(fields, 5)) if kind == 'vmsa' else None
    level = number(fields, base + 1) if image.format == 2 else image.levels[0]
    within(apic, 0, 2 ** 32 - 1, 'the APIC id')
    if seat:
        gpa_in(image, seat[0], PAGE_BYTES, 'the VMSA address')
        gpa_in(image, seat[1], 8, 'the calling area')
    if level not in image.levels:
        raise Refusal('range', f"the level {level:#x} is none of those in the 'vmpl' line")
    for other, place, _ in image.cores:
        if other == apic:
            raise Refusal('overlap', f'the APIC id {apic:#x} stood in an earlier core line')
        if seat and place and place[0] == seat[0]:
            raise Refusal('overlap', f'the VMSA page {seat[0] // PAGE_BYTES:#x} stood in an earlier core line')
    if len(image.cores) == CORES:
        raise Refusal('overlap', f'there are more than {CORES} core lines')
    image.cores.append((apic, seat, level))


def bytes_line(image, fields):
    count(fields, 3)
    gpa, digits = number(fields, 1), fields[2]
    if not digits or len(digits) % 16 or any(c not in '0123456789abcdefABCDEF' for c in digits):
        raise Refusal('number', f'{len(digits)} digits: contents are hexadecimal digits, 16 for each word of 8 bytes')
    multiple(gpa, 8, 'the address')
    if gpa + len(digits) // 2 > PAGES * PAGE_BYTES * image.regions:
        raise Refusal('range', f'the bytes end at {gpa + len(digits) // 2:#x}, past the map')
    for at in range(0, len(digits), 16):
        image.words[gpa + at // 2] = int.from_bytes(bytes.fromhex(digits[at:at + 16]), 'little')


def region_in(image, value):
    within(value, 0, image.regions - 1, 'the region')
    return value


def fault_line(image, fields):
    count(fields, 3)
    region, operation = number(fields, 1), number(fields, 2)
    image.faults.append((region_in(image, region), operation))


def large_line(image, fields):
    count(fields, 2)
    image.large.append(region_in(image, number(fields, 1)))


def pool_line(image, fields):
    count(fields, 2)
    is_word(fields, 1, 'split')
    image.split = True


def block_line(image, fields):
    count(fields, 3)
    page, size = number(fields, 1), number(fields, 2)
    page_in(image, page, 'the page')
    within(size, 0, 1, 'the size')
    image.blocks.append((page, size))


def announce_line(image, fields):
    count(fields, 1)
    image.announce = True


HOST = {'info': 3, 'features': 3, 'share': 3, 'ghcb': 3, 'step': 3, 'exit': 5, 'change': 5, 'run': 5, 'ap': 4}


def host_line(image, fields):
    kind = fields[1] if len(fields) > 1 else ''
    one_of(kind, HOST, 'host line')
    count(fields, HOST[kind])
    values = [number(fields, k) for k in range(2, len(fields))]
    if kind == 'step':
        within(values[0], 0, 253, 'the number of entries')
    elif kind == 'exit':
        within(values[1], 0, 2 ** 16 - 1, 'the index that comes back')
    elif kind == 'change':
        within(values[1], 0, 252, 'the entry')
    elif kind == 'run':
        within(values[0], 0, CORES - 1, 'the core')
    image.host.append((kind, values))


LINES = {'range': range_line, 'accept': accept_line, 'core': core_line, 'bytes': bytes_line, 'fault': fault_line, 'large': large_line,
         'pool': pool_line, 'block': block_line, 'announce': announce_line, 'host': host_line}


def try_large(image):
    for region in dict.fromkeys(image.large):
        rows = {image.page(page) for page in range(PAGES * region, PAGES * region + PAGES)}
        if len(rows) > 1:
            raise Refusal('large', f'the pages of region {region:#x} differ in owner, state or rights')
        if rows.pop()[0] == 'vmsa':
            raise Refusal('large', f'region {region:#x} is of owner vmsa')


def try_cores(image):
    if not image.cores:
        raise Refusal('core', 'there is no core line')
    seats = {seat[0] // PAGE_BYTES for _, seat, _ in image.cores if seat}
    pages = {page for page, row in image.pages.items() if row[0] == 'vmsa'}
    for page in sorted(seats - pages):
        raise Refusal('core', f"page {page:#x} is a core's VMSA, and no range gives it the owner vmsa")
    for page in sorted(pages - seats):
        raise Refusal('core', f'page {page:#x} is of owner vmsa, and no core line has it')


def try_blocks(image):
    if not image.blocks:
        return
    held = set()
    for first, size in image.blocks:
        if size and (first % PAGES or first // PAGES not in image.large):
            raise Refusal('block', f'the 2M block at page {first:#x} does not begin a region that is large')
        for page in range(first, first + (PAGES if size else 1)):
            if page in held or image.page(page)[0] != 'pool':
                raise Refusal('block', f'page {page:#x} ' + ('stands in two blocks' if page in held else 'of a block is not of owner pool'))
            held.add(page)
    for page, row in sorted(image.pages.items()):
        if row[0] == 'pool' and page not in held:
            raise Refusal('block', f'page {page:#x} is of owner pool, and stands in no block')


def try_end(image):
    try_large(image)
    if image.page(image.ghcb)[:2] != ('module', 'assigned'):
        owner, state, _ = image.page(image.ghcb)
        raise Refusal('ghcb', f"page {image.ghcb:#x}, which the line 'ghcb' names, is '{owner} {state}' and has to be 'module assigned'")
    for page in image.accepted:
        if image.page(page)[:2] != ('guest', 'shared'):
            raise Refusal('accept', f"page {page:#x} is accepted, and is '{' '.join(image.page(page)[:2])}' instead of 'guest shared'")
    try_cores(image)
    try_blocks(image)


def read_image(text):
    """The image of a text; a Refusal is its first line that fails."""
    image, heads = Image(), 0
    lines = text.split('\n')
    for at, line in enumerate(lines[:-1] if lines[-1] == '' else lines, 1):
        if not line or line[0] == '#':
            continue
        fields = fields_of(line)
        try:
            if heads < 5:
                heads += 1
                head_line(image, heads - 1, fields)
            elif fields[0] in LINES:
                LINES[fields[0]](image, fields)
            else:
                raise Refusal('line', f"'{fields[0]}' begins no line: {', '.join(LINES)}")
        except Refusal as refusal:
            refusal.line = at
            raise
    if heads < 5:
        raise Refusal('missing', f"the file ends before its line '{HEAD[heads]}'")
    try_end(image)
    return image


def row_in(image, page):
    owner, state, rights = image.page(page)
    size = 'large' if page // PAGES in image.large else 'small'
    return Row(owner, 'recorded' if state == 'valid' else 'unrecorded', state, f'{rights:#x}', 'vmsa' if owner == 'vmsa' else 'plain', size)


def booted_rows(image):
    """The page table behind a boot that ends well: the GHCB page is shared, and accepted pages are the guest's and valid."""
    rows = {page: row_in(image, page) for page in range(PAGES * image.regions)}
    ghcb = PAGES * (image.ghcb // PAGES)
    small = {ghcb} | {PAGES * (first // PAGES) for first, many in image.accepts if first % PAGES} \
        | {PAGES * ((first + many) // PAGES) for first, many in image.accepts if (first + many) % PAGES}
    for start in small:
        for page in range(start, start + PAGES):
            rows[page] = rows[page]._replace(size='small')
    rows[image.ghcb] = Row('module', 'unrecorded', 'shared', '0x0', 'plain', 'small')
    for first, many in image.accepts:
        for page in range(first, first + many):
            whole = first <= PAGES * (page // PAGES) and PAGES * (page // PAGES) + PAGES <= first + many
            rows[page] = Row('guest', 'recorded', 'valid', f'{15 << 4 * (image.levels[0] - 1):#x}', 'plain', 'large' if whole else 'small')
    return rows


# SCRIPTS

def line_of(record):
    """The line that a record of a script stands for."""
    kind, a, b, c, d, e = struct.unpack('<6Q', record)
    poll, kind, vmpl = kind >> 32, kind & 0xff, c & 0xff
    if kind in (2, 3):
        name = CALLS[a] if a < len(CALLS) else hex(a)
        named = [f'{r}={v:#x}' for r, v in zip(REGISTERS, (b, c, d, e)) if v]
        return ' '.join([KINDS[kind - 1], name] + named + ([f'poll={poll}'] if poll else []))
    at = [] if vmpl == 2 else [f'vmpl={vmpl}']
    if kind == 1:
        return ' '.join([f'write {a:#x} {b:#x}'] + at)
    if kind == 4:
        return ' '.join([f'read {a:#x}'] + at)
    if kind == 5:
        return ' '.join([f'adjust {a:#x} target={b & 0xff} mask={d & 0xff:#x}'] + at)
    if kind in (6, 7):
        return f'{KINDS[kind - 1]} {a:#x}'
    raise Told(f'no request has the kind {kind:#x}')


def records_of(data):
    if len(data) % 48:
        raise Told(f'{len(data)} bytes are no whole records of 48')
    return [data[at:at + 48] for at in range(0, len(data), 48)]


def lines_of(data):
    """A script's lines; what is wrong is told with the record's number."""
    lines = []
    for at, record in enumerate(records_of(data)):
        try:
            lines.append(line_of(record))
        except Told as error:
            raise Told(f'record {at:#x}: {error}') from None
    return lines


# REPORTS

class Report:
    """A report of a run, its lines by kind: outcomes and ends of cores, steps (None where the history was left out), page runs, exits that announce."""

    def __init__(self, path):
        lines = text_of(path).split('\n')
        if len(lines) < 3 or lines[0] != 'svsm-run 1' or lines[-2:] != ['end', '']:
            raise Told(f"{path}: no whole report: it begins with 'svsm-run 1' and ends with 'end'")
        self.path, self.cores, self.steps, self.pages, self.exits = path, [], None, [], []
        for at, line in enumerate(lines[1:-2], 2):
            word, _, rest = line.partition(' ')
            if word == 'step' and self.steps is not None:
                self.steps.append(rest)
            elif word == 'core':
                self.cores.append(rest.split())
            elif word == 'history' and self.steps is None:
                self.steps = []
                self.told = self.number(rest, at)
            elif word == 'rmp' and len(rest.split()) == 8:
                fields = rest.split()
                self.pages.append((self.number(fields[0], at), self.number(fields[1], at), Row(*fields[2:])))
            elif word == 'ap':
                self.exits.append(rest.split())
            else:
                raise Told(f'{path}: line {at} is of no report: {line[:60]}')
        if self.steps is not None and len(self.steps) != self.told:
            raise Told(f'{path}: its history has {len(self.steps)} lines, and says {self.told}')

    def number(self, field, at):
        found = hex_in(field)
        if found is None:
            raise Told(f"{self.path}: line {at}: '{field}' is no number")
        return found

    def rows(self):
        return {page: row for first, many, row in self.pages for page in range(first, first + many)}

    def history(self):
        if self.steps is None:
            raise Told(f'{self.path}: the report has no history: run again without --brief')
        return self.steps


def runs(pages):
    """Pages in order, joined where what is said of them is equal: first, last, what is said."""
    for (_, row), group in itertools.groupby(enumerate(sorted(pages)), lambda x: (x[1] - x[0], pages[x[1]])):
        group = [page for _, page in group]
        yield group[0], group[-1], row


def span(first, last):
    return f'{first:#x}' if first == last else f'{first:#x}..{last:#x}'
