"""Who has the key of a group, and of no device, brings its devices another image, as docs/OPERATING.md says."""
import fuota
from fuota.campaign.plan import gps, read_plan
from fuota.campaign.rehearsal import Fleet
from lives import IMAGE, VERSION, image_file, laid_out

FORGED = image_file(bytes(100), VERSION + 1)


def test_a_forged_image(tmp_path, library):
    plan, calls = read_plan(laid_out(tmp_path) / "plan.toml"), fuota.Library(library)
    assert len(FORGED) == len(IMAGE)
    t = plan.window.opens - 3_600_000
    fleet, device = Fleet(plan, calls, t, 60_000), plan.devices[1]
    with fuota.Server(plan.for_library(), plan.devices_for_library, plan.image.data, calls) as server:
        while server.ledger(2).word != "status" or not fleet.devices[device.eui].knows_time:
            t += 1_000
            down = server.ask(2)
            if down and server.ledger(2).word != "status":
                fleet.to_device(t, device.eui, down.port, down.data)
            for uplink in fleet.advance(t):
                answer = server.uplink(2, uplink.port, uplink.payload, gps(t)) if uplink.eui == device.eui and uplink.port >= 200 else None
                if answer:
                    fleet.to_device(t, device.eui, answer.port, answer.data)
    heard = fleet.devices[device.eui].device
    with fuota.Server(plan.for_library(), [bytes(16)], FORGED, calls) as forger:
        for number in range(plan.pieces):
            heard.radio(forger.frame(forger.next_fragment()), gps(plan.window.opens + 5_000 + 1_000 * number))
    assert heard.file(plan.index) == FORGED
    fleet.close()
