"""python3 -m oatmarten: the command."""
import sys

try:
    from .command import main
except KeyboardInterrupt:
    sys.exit(130)

sys.exit(main())
