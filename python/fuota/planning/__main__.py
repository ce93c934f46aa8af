"""python -m fuota.planning is fuota-plan."""
import sys

from .command import main

sys.exit(main())
