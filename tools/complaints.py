"""How a tool ends where something that it needs is not there: with one line that names it."""
import pathlib
import shutil
import sys


def end(complaint):
    raise SystemExit(f"{pathlib.Path(sys.argv[0]).name}: {complaint}")


def needs(program, what):
    """Ends the tool if there is no such program; `what` says where one gets it."""
    if shutil.which(program) is None:
        end(f"there is no {program} on the path: {what}")


def run(main):
    """The tool's main function; a file that cannot be read or written ends it."""
    try:
        main()
    except OSError as fault:
        if fault.filename is None:
            raise
        end(f"{fault.filename}: {fault.strerror}")
