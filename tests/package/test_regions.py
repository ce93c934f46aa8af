"""The regions: their data rates by the bit rates that RP002 tells, what a plan of each comes to, and what the library's devices take."""
import re

import pytest

import fuota
from fuota.campaign import reckoning
from fuota.campaign.plan import Window, read_plan
from fuota.limits import HIGHEST_DATA_RATE, HIGHEST_FREQUENCY, LOWEST_FREQUENCY
from fuota.regions import REGIONS
from lives import PLAN, laid_out

# The indicative bit rates, and M of the longest payload, of which N is 8 bytes less.
NARROW = {0: (250, 59), 1: (440, 59), 2: (980, 59), 3: (1_760, 123), 4: (3_125, 250), 5: (5_470, 250)}
MORE = NARROW | {6: (11_000, 250)}
WIDE = {8: (980, 61), 9: (1_760, 137), 10: (3_900, 250), 11: (7_000, 250), 12: (12_500, 250), 13: (21_900, 250)}


@pytest.mark.parametrize("name, wanted", [("EU868", MORE), ("US915", WIDE), ("AU915", WIDE), ("AS923", MORE), ("KR920", NARROW),
                                          ("IN865", NARROW), ("RU864", MORE)])
def test_data_rates(name, wanted):
    """The bit rate of LoRa with coding rate 4/5, where SF11 and SF12 carry two bits less."""
    rates = REGIONS[name].rates
    assert {number: rate.longest + 8 for number, rate in rates.items()} == {number: longest for number, (_, longest) in wanted.items()}
    for number, rate in rates.items():
        bits = rate.factor - 2 * (rate.factor > 10)
        assert 800 * bits * rate.bandwidth / 2 ** rate.factor == pytest.approx(wanted[number][0], rel=0.03)


def test_all_regions_are_tried():
    assert list(REGIONS) == ["EU868", "US915", "AU915", "AS923", "KR920", "IN865", "RU864"]


@pytest.mark.parametrize("frequency, wanted", [(863_500_000, 0.1), (866_000_000, 1), (868_100_000, 1), (868_800_000, 0.1),
                                               (868_650_000, None), (869_525_000, 10), (869_800_000, 1)])
def test_duty_cycles(frequency, wanted):
    assert REGIONS["EU868"].duty_cycle(frequency) == wanted


def in_region(region, frequency, rate, **more):
    """The plan of another region."""
    text = PLAN.replace('image = "image"', f'image = "image"\nregion = "{region}"').replace("869525000", str(frequency))
    text = re.sub(r"(?<=\n)(unicast_)?data_rate = 3", lambda found: f"{found[1] or ''}data_rate = {rate}", text)
    for name, value in more.items():
        text = re.sub(rf"\n{name} = .*", f"\n{name} = {value}", text)
    return text


@pytest.mark.parametrize("words, wanted", [
    (("EU868", 869_525_000, 3), ["region: EU868, 10 % of the time on the air"]),
    (("EU868", 868_100_000, 3), ["region: EU868, 1 % of the time on the air, and pace.duty_cycle is 10"]),
    (("EU868", 869_525_000, 6), ["region: EU868, 10 % of the time on the air",
                                 "devices: the library's own refuse data rate 6, as it is above 5; others may take it"]),
    (("US915", 923_300_000, 8), ["region: US915, without a duty cycle that is known here",
                                 "devices: the library's own refuse 923.3 MHz, as it is not from 863 to 870 MHz; others may take it"]),
    (("AS923", 923_200_000, 0), ["region: AS923, 1 % of the time on the air, and pace.duty_cycle is 10",
                                 "region: where a downlink may take 0.4 s, as by DownlinkDwellTime, a fragment of 1.97 s is too long",
                                 "devices: the library's own refuse 923.2 MHz, as it is not from 863 to 870 MHz; others may take it"]),
    (("IN865", 866_550_000, 2), ["region: IN865, without a duty cycle that is known here"])], ids=lambda words: " ".join(map(str, words[:3])))
def test_check(call, tmp_path, words, wanted):
    laid_out(tmp_path, in_region(*words, timeout=12))
    done = call("fuota-campaign", "check", "plan.toml")
    lines = [line for line in done.said.splitlines() if line.startswith("region") or "library" in line]
    assert (done.status, done.message, lines) == (0, "", wanted)


def test_air_of_a_region(tmp_path):
    """41 bytes at SF12 and 500 kHz: 12.25 + 8 + 5 * 7 symbols of 8.192 ms."""
    plan = read_plan(laid_out(tmp_path, in_region("US915", 923_300_000, 8)) / "plan.toml")
    assert plan.fragment_air == pytest.approx(55.25 * 8.192) and plan.unicast_rate == 8


def test_slowest_rate_by_unicast(tmp_path):
    text = in_region("AU915", 923_300_000, 10).replace("unicast_data_rate = 10\n", "")
    assert read_plan(laid_out(tmp_path, text) / "plan.toml").unicast_rate == 8


def test_air_table(call):
    done = call("fuota-plan", "--air", "100", "--region", "US915", "--size", "48", "--pieces", "20", "--coded", "0")
    rows = done.said.splitlines()
    assert rows[0].endswith(", on the air 100 % of the time in US915") and [row.split()[:2] for row in rows[2:]] == [
        [str(number), str(longest - 11)] for number, (_, longest) in WIDE.items()]


def test_no_rehearsal_of_others(call, tmp_path, library):
    laid_out(tmp_path, in_region("US915", 923_300_000, 8))
    done = call("fuota-campaign", "rehearse", "plan.toml", "state", "--library", library)
    assert (done.status, done.message) == (2, "fuota-campaign: plan.toml: window: a rehearsal has the library's own devices, which refuse "
                                              "923.3 MHz, as it is not from 863 to 870 MHz\n")


@pytest.mark.parametrize("frequency", [LOWEST_FREQUENCY - 1, LOWEST_FREQUENCY, HIGHEST_FREQUENCY, HIGHEST_FREQUENCY + 1])
@pytest.mark.parametrize("rate", [0, HIGHEST_DATA_RATE, HIGHEST_DATA_RATE + 1])
def test_what_the_library_takes(library, frequency, rate):
    """By the bits of its device's answer: 4 data rate, 8 frequency; 16, since it has no group, is not looked at."""
    calls = fuota.Library(library)
    window = Window(kind="C", start=0, timeout=0, frequency=100 * frequency, data_rate=rate)
    with fuota.Device(fuota.Config(hw=1, area=1_000, rows=1, formats=1, sessions=1, groups=1, is_class_c=True, key=bytes(16)), calls) as device:
        request = bytes([4, 0, *(1_000).to_bytes(4, "little"), 4, *frequency.to_bytes(3, "little"), rate])
        device.deliver(200, request, 0)
        answer = calls.decode(200, True, device.take_uplink().data)
    bits = int(re.search(r"bits=(\d+)", answer)[1]) & 12
    assert (reckoning.refused_by_library(window) is not None) == (bits != 0)
