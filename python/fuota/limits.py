"""The numbers that bound images, plans and captures; docs/LIMITS.md says where each comes from."""

MAX_PAYLOAD = 242
MAX_PIECE = 239
MAX_IMAGE = 262_144
IMAGE_HEAD = 49
MAX_PIECES = 4_096
MAX_CODED = 512
MAX_ROWS = 256
MAX_DEVICES = 64
MAX_LINES = 20_000
MAX_CAPTURE = 1_048_576
# Of a class session to the library's own devices, in 100 Hz and as a data rate.
LOWEST_FREQUENCY = 8_630_000
HIGHEST_FREQUENCY = 8_700_000
HIGHEST_DATA_RATE = 5
MAX_MESSAGE = 65_536
