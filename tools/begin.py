"""begin.py PROGRAM [WORD..]: runs tools/PROGRAM, which is Python, with these words; what must hold before a line of it is read.

A Python that is too old says which is needed. An interrupt ends the program as it ends any other, until the program itself wants to hear of it: Python's own way,
an exception wherever it may be, would print where that was."""

import _signal
import sys

if sys.version_info < (3, 9):
    sys.stderr.write('{}: Python 3.9 or newer is needed, and this is {}.{}\n'.format(sys.argv[1], *sys.version_info))
    sys.exit(2)
if _signal.getsignal(_signal.SIGINT) is _signal.default_int_handler:
    _signal.signal(_signal.SIGINT, _signal.SIG_DFL)

program = __file__[:-len('begin.py')] + sys.argv[1]
sys.path[:0] = program, __file__[:-len('begin.py')] + 'shared'
del sys.argv[0]
with open(program + '/__main__.py', 'rb') as source:
    text = source.read()
exec(compile(text, source.name, 'exec'), {'__name__': '__main__', '__file__': source.name})
