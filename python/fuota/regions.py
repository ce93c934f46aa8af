"""The regions of LoRaWAN: what a downlink may be in each.

Data rates and longest payloads are those of LoRaWAN Regional Parameters, RP002-1.0.3, in the section of each region's band: the data
rates of LoRa that a downlink may have, and N of the table of payloads without a repeater and without a limit of dwell time. The duty
cycles of EU868 are those of ETSI EN 300 220-2, table B.1, and of others those of RP002. CN470 is not here: its plans of channels differ
in more than a table says.
"""
from dataclasses import dataclass


@dataclass(frozen=True)
class Rate:
    """A data rate of LoRa: its spreading factor, its bandwidth in kHz, and the most bytes of a payload."""

    factor: int
    bandwidth: int
    longest: int


@dataclass(frozen=True)
class Band:
    """Frequencies in Hz, and the percent of the time that a sender may be on the air there."""

    lowest: int
    highest: int
    duty_cycle: float


@dataclass(frozen=True)
class Region:
    """A region: its name, its frequencies in Hz, its data rates by their numbers, the bands that have a duty cycle, and the ms that a
    downlink may be on the air where the network server tells devices so (DownlinkDwellTime)."""

    name: str
    lowest: int
    highest: int
    rates: dict[int, Rate]
    bands: tuple[Band, ...] = ()
    dwell_time: int | None = None

    @property
    def slowest(self) -> int:
        return min(self.rates)

    def duty_cycle(self, frequency: int) -> float | None:
        """The percent of the time for a frequency; None where no limit is known."""
        shares = [band.duty_cycle for band in self.bands if band.lowest <= frequency <= band.highest]
        return max(shares, default=None)


# From SF12 to SF7 at 125 kHz, which most regions have, and one more at 250 kHz.
COMMON = {0: Rate(12, 125, 51), 1: Rate(11, 125, 51), 2: Rate(10, 125, 51), 3: Rate(9, 125, 115), 4: Rate(8, 125, 242),
          5: Rate(7, 125, 242)}
SIXTH = {6: Rate(7, 250, 242)}
# From SF12 to SF7 at 500 kHz: the downlinks of America and Australia.
WIDE = {8: Rate(12, 500, 53), 9: Rate(11, 500, 129), 10: Rate(10, 500, 242), 11: Rate(9, 500, 242), 12: Rate(8, 500, 242),
        13: Rate(7, 500, 242)}
MHZ = 1_000_000
EUROPE = (Band(863 * MHZ, 865 * MHZ, 0.1), Band(865 * MHZ, 868 * MHZ, 1), Band(868 * MHZ, 868_600_000, 1),
          Band(868_700_000, 869_200_000, 0.1), Band(869_400_000, 869_650_000, 10), Band(869_700_000, 870 * MHZ, 1))

REGIONS = {region.name: region for region in (
    Region("EU868", 863 * MHZ, 870 * MHZ, COMMON | SIXTH, EUROPE),
    Region("US915", 902 * MHZ, 928 * MHZ, WIDE),
    Region("AU915", 915 * MHZ, 928 * MHZ, WIDE),
    Region("AS923", 915 * MHZ, 928 * MHZ, COMMON | SIXTH, (Band(915 * MHZ, 928 * MHZ, 1),), dwell_time=400),
    Region("KR920", 920_900_000, 923_300_000, COMMON),
    Region("IN865", 865 * MHZ, 867 * MHZ, COMMON),
    Region("RU864", 864 * MHZ, 870 * MHZ, COMMON | SIXTH, (Band(864 * MHZ, 870 * MHZ, 1),)),
)}
DEFAULT = "EU868"
