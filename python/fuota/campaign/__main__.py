"""python -m fuota.campaign is fuota-campaign."""
import sys

from .command import main

sys.exit(main())
