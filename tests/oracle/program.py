"""The program that is tried: the one that PLRUN names, or else the one that was built."""
import os
import sys

ROOT = os.path.dirname(os.path.dirname(os.path.dirname(os.path.abspath(__file__))))
PROGRAM = os.path.abspath(os.environ.get('PLRUN') or os.path.join(ROOT, 'crates/plrun/out/plrun'))


def need_program():
    """Ends with a message if there is no program."""
    if not os.access(PROGRAM, os.X_OK):
        sys.exit(f'{os.path.relpath(sys.argv[0], ROOT)}: there is no program {PROGRAM}')
