"""Loads a tool by its name, and runs one as a user does."""
import contextlib, importlib.machinery, importlib.util, io, os, sys

sys.dont_write_bytecode = True
TOOLS = os.path.dirname(os.path.dirname(os.path.abspath(__file__)))
TOP = os.path.dirname(TOOLS)
sys.path.insert(0, TOOLS)
import formats


def load(name):
    """The module of a tool that has no ending."""
    loader = importlib.machinery.SourceFileLoader('tool_' + name, os.path.join(TOOLS, name))
    module = importlib.util.module_from_spec(importlib.util.spec_from_loader(loader.name, loader))
    loader.exec_module(module)
    return module


def ran(name, *words, given=b''):
    """Exit status, standard output and standard error of a tool, run in this process."""
    given = given.encode() if isinstance(given, str) else given
    streams = [io.TextIOWrapper(io.BytesIO(data), encoding='utf-8', write_through=True) for data in (given, b'', b'')]
    kept = sys.argv, sys.stdin
    sys.argv, sys.stdin, status = [os.path.join(TOOLS, name), *words], streams[0], 0
    try:
        with contextlib.redirect_stdout(streams[1]), contextlib.redirect_stderr(streams[2]):
            formats.run(load(name).main)
    except SystemExit as ended:
        status = ended.code if isinstance(ended.code, int) else 0 if ended.code is None else 1
        if isinstance(ended.code, str):
            streams[2].write(ended.code + '\n')
    finally:
        sys.argv, sys.stdin = kept
    return status, *(stream.buffer.getvalue().decode(errors='replace') for stream in streams[1:])


def example(name):
    return os.path.join(TOP, 'examples', name)
