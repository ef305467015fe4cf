"""`python3 -m relief_gis`: the command."""
import sys

from .command import main

sys.exit(main())
