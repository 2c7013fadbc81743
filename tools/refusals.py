"""The lines of svsm_run on standard error, in words: the cause, and what to do."""
from formats import FILE_BYTES, PAGE_BYTES, REQUESTS, Refusal, Told, fields_of, hex_in, read_image, said

# by the kind of a refused image: what it means, and what to do
IMAGE = {
    'missing': ('one of the first five lines is another, or is not there', 'write svsm-image, regions, vmpl, features and ghcb in this order'),
    'line': ('an unknown word, or a wrong number of fields', 'compare the line with its form in docs/TEXTS.md'),
    'number': ('a field is no number, or contents are not whole words', 'write 0x and up to 16 digits; contents have 16 digits a word'),
    'range': ('a number outside its limit or the map, or an address that is no multiple of its unit', 'mend the number'),
    'overlap': ('a page in two ranges, an APIC id or a VMSA page twice, or too many cores', 'name it once'),
    'state': ('rights of a page that is not the guest\'s and valid, or pool and VMSA pages that are not valid', 'write valid, or rights 0x0'),
    'large': ('the pages of a large region differ, or are VMSA pages', 'give the region one range, or take the large line out'),
    'ghcb': ('the GHCB page is not module assigned', 'give it a range of its own: range PAGE 0x1 module assigned 0x0'),
    'accept': ("an accepted page is not the guest's and shared", 'take its range out: a page that none names is guest shared'),
    'core': ('there is no core, or the VMSA pages are not just those of the cores', 'give each core\'s VMSA page a range of owner vmsa, and no other'),
    'block': ('the listed blocks are not just the pages of the pool', 'list each page of the pool in one block, or no block at all'),
    'long': (f'the file has more than {FILE_BYTES:,} bytes', 'make it shorter'),
}
SCRIPT = {
    'length': ('the size is no multiple of 48', 'make it with tools/script write'),
    'count': (f'there are more than {REQUESTS} requests', 'split the work into two scripts'),
    'kind': ('the kind of the record is not 1 to 7', 'make it with tools/script write'),
    'vmpl': ("a guest's request has a VMPL that is not 1 to 3", 'write vmpl=1, 2 or 3'),
    'align': ('the address of a word is no multiple of 8, or that of a page no multiple of 4096', 'mend the address'),
    'long': (f'the file has more than {FILE_BYTES:,} bytes', 'is it a script?'),
    'core': ('there is no core for this script', 'add a core line to the image, or leave the script out'),
    'total': ('all scripts together have more than 2048 requests', 'leave requests out, from this one on'),
}
BOOT = {
    'msr': ('the host answered {1} to the request {0}, which is no right answer to it, or one that the boot cannot go on with', ('sent', 'got')),
    'said': ('the host answered a page-state exit with EXITINFO1 {0} and EXITINFO2 {1}, which is an error', ('info1', 'info2')),
    'end': ('the host gave back the end index {1} for {0}', ('sent', 'got')),
    'back': ('the host went back: the index {1} came back, behind {0} that was sent', ('sent', 'got')),
    'past': ('the host gave back the index {1}, past the end {0}', ('end', 'got')),
    'changed': ('the host changed entry {0}, which was {1} and came back as {2}', ('index', 'sent', 'got')),
    'stalled': ('the host made no progress in 64 exits, at index {0}', ('index',)),
    'fault': ('an operation of the accept of page {0} faulted', ('page',)),
}
REQUESTS_SENT = {0x002: 'Info (versions)', 0x012: 'Register (the GHCB page)', 0x014: 'Change (the GHCB page to shared)', 0x080: 'Features'}
WORDS = {
    'words': 'the words are none of: run IMAGE SCRIPT.. [--brief], with 1 to 64 scripts; save IMAGE SCRIPT..; gen CORES REQUESTS NUMBER, of 1 to 16, '
             '1 to 128 and below 2^64',
    'memory': 'memory ran out: use a smaller image, fewer requests, or a machine with more',
    'write': 'a write to standard output failed: what was written is the front of the report',
}


def of_line(text, at):
    lines = text.split('\n')
    return lines[at - 1] if 1 <= at <= len(lines) else ''


def of_image(fields, text):
    at, kind = number(fields, 1), fields[2]
    if kind not in IMAGE:
        raise Told(f"'{kind}' is no kind of a refused image")
    cause, remedy = IMAGE[kind]
    head = f'line {at}: {of_line(text, at)[:200]}' if at else 'the image as a whole'
    try:
        read_image(text)
        own = 'but this file reads as a good image: is it the one that was run?'
    except Refusal as refusal:
        own = refusal.cause if (refusal.line, refusal.kind) == (at, kind) else \
            f'but this file fails at line {refusal.line} by {refusal.kind}: is it the one that was run?'
    if kind == 'long':
        own = cause
    return f'{head}\n  cause: {kind}: {own}\n  in general: {cause}\n  what to do: {remedy}'


OTHER = ', which is right: is it the script that was run?'


def cause_in(kind, data, at):
    """The cause in a script's record, where it is known."""
    words = [int.from_bytes(data[48 * at + 8 * k:48 * at + 8 * k + 8], 'little') for k in range(6)] if 48 * at + 48 <= len(data) else None
    if kind == 'length':
        return f'{len(data)} bytes are {len(data) // 48} whole records and {len(data) % 48} bytes'
    if kind == 'count':
        return f'it has {len(data) // 48} requests'
    if words is None:
        return ''
    if kind == 'kind':
        return f'its kind is {words[0] & 0xff}' + (OTHER if 1 <= words[0] & 0xff <= 7 else '')
    if kind == 'vmpl':
        return f'its VMPL is {words[3] & 0xff}' + (OTHER if 1 <= words[3] & 0xff <= 3 else '')
    if kind == 'align':
        unit = 8 if words[0] & 0xff in (1, 4) else PAGE_BYTES
        return f'its address is {words[1]:#x}, which is {words[1] % unit:#x} past a multiple of {unit}' + ('' if words[1] % unit else OTHER)
    return ''


def of_script(fields, scripts):
    core, at, kind = number(fields, 1), number(fields, 3), fields[4]
    if kind not in SCRIPT:
        raise Told(f"'{kind}' is no kind of a refused script")
    cause, remedy = SCRIPT[kind]
    found = cause_in(kind, scripts[core], at) if core < len(scripts) else ''
    where = f'the script of core {core}' + (f', request {at} (line {at + 1} of tools/script read)' if kind in ('kind', 'vmpl', 'align', 'total') else '')
    return f"{where}\n  cause: {kind}: {cause}{'; ' + found if found else ''}\n  what to do: {remedy}"


def of_boot(fields):
    form, kept = BOOT.get(fields[1], (None, ()))
    if form is None or len(fields) != len(kept) + 2:
        raise Told("of 'boot' no such line is written")
    values = [number(fields, at) for at in range(2, len(fields))]
    cause = form.format(*(said(value) for value in values))
    if fields[1] == 'msr':
        cause += f"\n  the request is {REQUESTS_SENT.get(values[0] & 0xfff, 'unknown')}"
    return f"the image does not boot\n  cause: {fields[1]}: {cause}\n  what to do: look at the image's host, accept and fault lines"


# by the word behind `save`: how many values there are, why the last state is no image, and what to do
SAVE = {
    'core': (1, 'core {0} ended by a fault of the platform or a wrong answer of the host', 'look at the report of the same run'),
    'page': (1, 'page {0} is recorded and not valid, or valid and not recorded, or it is the GHCB page and assigned: no range line says so',
             'leave out what the host did to it: share and assign'),
    'host': (2, 'the host refused an announcement, with EXITINFO1 {0} and EXITINFO2 {1}', "take the image's 'host ap' line out"),
    'long': (0, f'its image would have more than {FILE_BYTES:,} bytes', 'write fewer words in the image and the scripts'),
}


def of_save(fields):
    many, form, remedy = SAVE.get(fields[1], (-1, '', ''))
    if len(fields) != many + 2:
        raise Told("of 'save' no such line is written")
    cause = form.format(*(said(number(fields, at)) for at in range(2, len(fields))))
    return f'the last state is not saved\n  cause: {fields[1]}: {cause}\n  what to do: {remedy}'


def number(fields, at):
    found = hex_in(fields[at])
    if found is None:
        raise Told(f"'{fields[at]}' is no number of svsm_run")
    return found


def explained(told, image, scripts):
    """A line of svsm_run, in words; of several lines the last one of its own."""
    lines = [line for line in told.split('\n') if line.startswith('svsm_run: ')]
    if not lines:
        raise Told("on standard input stands no line that begins with 'svsm_run: '")
    fields = fields_of(lines[-1])[1:]
    if fields[0] in WORDS and len(fields) == 1:
        return WORDS[fields[0]]
    if fields[0] == 'read' and len(fields) == 2:
        at = number(fields, 1)
        return f"the load of {'the image' if at == 0 else f'the script of core {at - 1}'} failed: is there such a file, may it be read, and is it no folder?"
    if fields[0] == 'image' and len(fields) == 4 and fields[1] == 'line':
        return of_image(fields[1:], image)
    if fields[0] == 'script' and len(fields) == 5 and fields[2] == 'at':
        return of_script(fields, scripts)
    if fields[0] == 'boot' and len(fields) > 1:
        return of_boot(fields)
    if fields[0] == 'save' and len(fields) > 1:
        return of_save(fields)
    if fields == ['report', 'long']:
        return 'the report to be checked is longer than the program reads: is it a report?'
    raise Told(f"'{lines[-1]}' is no line of svsm_run that docs/TEXTS.md has")
