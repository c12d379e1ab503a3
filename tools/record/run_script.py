"""Runs a script as __main__ while the hooks record, in the process that is recorded; pymrecord starts it.

Usage: run_script.py FOLDER LOG RECORDS FRAMES SINCE SCRIPT ARGUMENT...
FOLDER has the extension pymhooks. SINCE is `start` where the process records already, `script` for the script's first line, and
`imports` for the first line after the docstring and the imports that lead the script."""
import sys

sys.path.insert(0, sys.argv[1])
import pymhooks  # noqa: E402

del sys.path[0]


def split_script(path, with_imports):
    """The code of the leading docstring and imports, where these are to be apart, and the code of the rest."""
    import __future__
    import ast

    with open(path, "rb") as file:
        tree = ast.parse(file.read(), path)
    led = 0
    flags = 0
    for node in tree.body:
        if isinstance(node, ast.ImportFrom) and node.module == "__future__":
            for name in node.names:
                flags |= getattr(__future__, name.name).compiler_flag
        elif not isinstance(node, (ast.Import, ast.ImportFrom)):
            if not (isinstance(node, ast.Expr) and isinstance(node.value, ast.Constant)):
                break
        led += 1
    if not with_imports:
        led = 0
    parts = tree.body[:led], tree.body[led:]
    return [compile(ast.Module(part, []), path, "exec", flags, True) for part in parts]


def make_main(path):
    """A new module __main__ as the interpreter makes one for a script."""
    import os
    import types

    main = types.ModuleType("__main__")
    main.__file__ = path
    main.__builtins__ = __builtins__
    if not sys.flags.safe_path:
        sys.path[0] = os.path.dirname(os.path.abspath(path))
    sys.modules["__main__"] = main
    return vars(main)


def count_frames():
    frames, frame = 0, sys._getframe(1)
    while frame:
        frames, frame = frames + 1, frame.f_back
    return frames


def wait_for_threads():
    """Waits as the interpreter does at its end, but while recording."""
    threading = sys.modules.get("threading")
    if threading:
        for thread in threading.enumerate():
            if thread is not threading.current_thread() and not thread.daemon:
                thread.join()


def run():
    log, most_records, with_frames, since, script = sys.argv[2:7]
    sys.argv = sys.argv[6:]
    first, rest = split_script(script, since == "imports")
    names = make_main(script)
    exec(first, names)
    del first
    import gc

    gc.collect()
    if since == "start":
        pymhooks.hide(count_frames())
    else:
        pymhooks.start(log, int(most_records), int(with_frames), count_frames())
    try:
        exec(rest, names)
        wait_for_threads()
    finally:
        pymhooks.stop()


try:
    run()
except SystemExit:
    raise
except BaseException as error:
    trace = error.__traceback__
    while trace.tb_next and trace.tb_frame.f_globals is globals():
        trace = trace.tb_next
    sys.excepthook(type(error), error.with_traceback(trace), trace)
    sys.exit(1)
