"""Faults with their sizes, and the flights that they are planted in: the fixed cases of tests/findings.py."""
from tests import faults
from tests import sender_faults as senders

FAST, SLOW, LATE = {}, {"period": 100}, {"period": 100, "skew": 1000}
MANY = {"links": 60, "seconds": 20, "bag": 64, "period": 100}
HOUR, DAY = {"links": 15, "seconds": 3600, "bag": 128, "period": 8000}, {"links": 12, "seconds": 86400, "bag": 128, "period": 150_000}
# Each with what is planted and how, and the flight if it isn't that of 12 links each 32 ms for 20 s.
FIXED = (
    ("one frame lost on A", faults.lost, {"n": "A", "links": 1, "frames": 1}),
    ("one frame lost on B", faults.lost, {"n": "B", "links": 1, "frames": 1}),
    ("two frames in a row lost on A", faults.lost, {"n": "A", "links": 1, "frames": 1, "row": 2}),
    ("seven frames in a row lost on B", faults.lost, {"n": "B", "links": 1, "frames": 1, "row": 7}),
    ("seven in a row lost on A, three times", faults.lost, {"n": "A", "links": 1, "frames": 3, "row": 7}),
    ("sixty single frames of a link lost on A", faults.lost, {"n": "A", "links": 1, "frames": 60}),
    ("five frames of four links lost on B", faults.lost, {"n": "B", "links": 4, "frames": 5}),
    ("five frames of five links lost on B", faults.lost, {"n": "B", "links": 5, "frames": 5}),
    ("a frame of each of 40 links lost on A", faults.lost, {"n": "A", "links": 40, "frames": 1}, MANY),
    ("ten frames of a link without redundancy lost on A", faults.lost, {"n": "A", "links": 1, "frames": 10}, {"redundancy": False}),
    *((f"the first {frames} frames of a link lost on {n}", faults.first_lost, {"n": n, "frames": frames}, flight)
      for n, frames, flight in (("A", 1, FAST), ("B", 1, FAST), ("A", 3, FAST), ("B", 7, FAST), ("A", 2, HOUR), ("B", 12, FAST))),
    *((f"the last {frames} frames of a link lost on {n}", faults.last_lost, {"n": n, "frames": frames}, flight)
      for n, frames, flight in (("A", 1, FAST), ("B", 1, FAST), ("A", 3, FAST), ("B", 7, FAST), ("A", 2, HOUR), ("B", 12, FAST))),
    ("a frame lost in an hour", faults.lost, {"n": "B", "links": 1, "frames": 1}, HOUR),
    ("a frame lost in a day", faults.lost, {"n": "A", "links": 1, "frames": 1}, DAY),
    ("one frame lost on both networks", faults.lost_on_both, {"links": 1, "frames": 1}),
    ("seven in a row lost on both networks", faults.lost_on_both, {"links": 1, "frames": 1, "row": 7}),
    ("ten frames of two links lost on both networks", faults.lost_on_both, {"links": 2, "frames": 10}),
    ("one frame lost on A, another on B", faults.lost_on_each, {"frames": 1}),
    ("15 frames lost on A, 15 others on B", faults.lost_on_each, {"frames": 15}),
    *((f"a link absent from {n} for {size} frames", faults.absent, {"n": n, "rows": 1, "size": size}, {"links": 6, "seconds": 40})
      for n, size in (("A", 8), ("B", 8), ("A", 9), ("A", 63), ("B", 126), ("A", 127), ("A", 128), ("B", 129), ("A", 253), ("A", 254),
                      ("B", 255),
                      ("A", 256), ("A", 300), ("B", 509), ("A", 510), ("A", 550))),
    ("a link absent from A three times", faults.absent, {"n": "A", "rows": 3, "size": 20}),
    ("a slow link absent from B in an hour", faults.absent, {"n": "B", "rows": 1, "size": 12}, HOUR),
    *((f"a link absent from both networks for {size} frames", faults.absent_on_both, {"size": size}) for size in (8, 20, 60, 100)),
    *((f"{links} links absent from both networks at the same time", faults.absent_group_on_both, {"links": links}) for links in (3, 5)),
    *((f"{links} links absent from {n} at the same time", faults.absent_group, {"n": n, "links": links}, flight)
      for n, links, flight in (("A", 3, FAST), ("B", 3, FAST), ("A", 4, FAST), ("B", 6, FAST), ("A", 12, MANY), ("B", 30, MANY),
                               ("A", 3, HOUR))),
    *((f"no frame on {n} for {size // 1000000} ms", faults.silence, {"networks": n, "size": size})
      for n, size in (("A", 32_000_000), ("B", 32_000_000), ("AB", 40_000_000), ("A", 100_000_000), ("B", 1_000_000_000),
                      ("AB", 1_000_000_000),
                      ("A", 3_000_000_000), ("B", 8_400_000_000), ("AB", 3_000_000_000))),
    ("no frame on A for 80 ms, 70 times", faults.many_silences, {}, {"links": 6, "seconds": 60}),
    ("a link absent from B while A is silent", faults.absent_in_silence, {"n": "A"}),
    ("a link absent from A while B is silent", faults.absent_in_silence, {"n": "B"}),
    ("no frame on A for three minutes of an hour", faults.silence, {"networks": "A", "size": 180_000_000_000}, HOUR),
    ("no frame on A and B for half an hour of a day", faults.silence, {"networks": "AB", "size": 1800_000_000_000}, DAY),
    *((f"the clock of {n} goes forward by {size // 1000000} ms", faults.clock_step, {"n": n, "size": size})
      for n, size in (("A", 250_000_000), ("B", 250_000_000), ("A", 1_000_000_000), ("B", 1_000_000_000), ("B", 37_000_000_000),
                      ("A", 86400_000_000_000))),
    *((f"both clocks go forward by {size // 1000000} ms", faults.clocks_step, {"size": size}) for size in (500_000_000, 20_000_000_000)),
    *((f"frames on {n} come {size // 1000} us later", faults.skew_step, {"n": n, "size": size})
      for n, size in (("A", 1_700_000), ("B", 1_700_000), ("A", 4_000_000), ("B", 5_000_000), ("B", 12_000_000))),
    ("frames on B come 5 ms later in an hour", faults.skew_step, {"n": "B", "size": 5_000_000}, HOUR),
    *((f"clocks that drift by {ppb} ppb", faults.drift, {"ppb": ppb}, flight)
      for ppb, flight in ((200_000, FAST), (-200_000, FAST), (300_000, FAST), (-300_000, MANY), (2_000, HOUR), (-2_000, HOUR), (-100, DAY),
                          (200, DAY))),
    *((f"stamps that are multiples of {grain // 1000} us", faults.coarse, {"grain": grain}) for grain in (100_000, 1_000_000, 10_000_000)),
    *((f"the recorder of {n} begins {size // 1000000} ms late", faults.recorder_late, {"n": n, "size": size})
      for n, size in (("A", 50_000_000), ("B", 50_000_000), ("A", 3_000_000_000), ("B", 3_000_000_000))),
    ("the recorder of A begins two minutes late", faults.recorder_late, {"n": "A", "size": 120_000_000_000}, HOUR),
    *((f"the recorder of {n} ends {size // 1000000} ms early", faults.recorder_ends, {"n": n, "size": size})
      for n, size in (("A", 50_000_000), ("B", 50_000_000), ("A", 3_000_000_000), ("B", 3_000_000_000))),
    ("the recording of A holds both networks", faults.mixed, {}),
    ("the clock of A goes back", faults.clock_back, {"n": "A", "size": 3_000_000_000}),
    ("the clock of B goes back", faults.clock_back, {"n": "B", "size": 3_000_000_000}),
    ("the recording of A is cut off", faults.broken, {"n": "A", "size": 2_000_000_000}),
    ("the recording of B is cut off", faults.broken, {"n": "B", "size": 2_000_000_000}),
    ("no frame on A at all", faults.no_frames, {"n": "A"}),
    ("no frame on B at all", faults.no_frames, {"n": "B"}),
    *((f"a link pauses {times} times for {size} intervals", senders.outage, {"times": times, "size": size})
      for times, size in ((1, 5), (1, 6), (1, 100), (1, 254), (2, 20), (3, 40), (8, 12))),
    ("a slow link pauses in an hour", senders.outage, {"times": 1, "size": 10}, HOUR),
    *((f"{links} links pause at the same time", senders.outage_group, {"links": links}, flight) for links,
      flight in ((3, FAST), (6, FAST), (20, MANY))),
    *((f"{links} links pause and begin anew", senders.restart_group, {"links": links}, flight) for links,
      flight in ((3, FAST), (6, FAST), (12, MANY))),
    *((f"all senders are off for {size // 1000000} ms", senders.power_cycle, {"size": size}, flight)
      for size, flight in ((1_000_000_000, FAST), (5_000_000_000, FAST), (2_000_000_000, MANY), (5_000_000_000, {"links": 3}))),
    ("a link pauses and begins anew", senders.restart, {}),
    ("a sender begins anew", senders.reset, {"times": 1}),
    ("a sender begins anew three times", senders.reset, {"times": 3}),
    *((f"a sender begins anew with {frames} frames that are lost on {n}", senders.reset_lost, {"n": n, "frames": frames})
      for n, frames in (("A", 1), ("B", 1), ("A", 2), ("B", 5))),
    ("three senders begin anew at the same time", senders.reset_group, {"links": 3}),
    ("ten senders begin anew at the same time", senders.reset_group, {"links": 10}, MANY),
    ("a sender counts from 255 to 0", senders.wraps_to_zero, {}),
    *((f"{links} links stop", senders.stops, {"links": links}, flight) for links,
      flight in ((1, FAST), (2, FAST), (3, FAST), (6, FAST), (20, MANY), (1, HOUR))),
    *((f"{links} links start late", senders.starts_late, {"links": links}, flight) for links,
      flight in ((1, FAST), (2, FAST), (3, FAST), (15, MANY), (1, HOUR))),
    *((f"{links} links stop on {n}", senders.stops_on, {"n": n, "links": links}) for n, links in (("A", 1), ("B", 1), ("A", 2), ("B", 6))),
    *((f"{links} links start late on {n}", senders.starts_late_on, {"n": n, "links": links}) for n,
      links in (("A", 1), ("B", 1), ("A", 2), ("B", 6))),
    *((f"{links} links never on {n}", senders.never_on, {"n": n, "links": links}) for n, links in (("A", 1), ("B", 1), ("A", 5))),
    *((f"{links} links of the table have no frame", senders.never, {"links": links}) for links in (1, 7)),
    *((f"an interval becomes {factor} times as long", senders.rate, {"factor": factor},
       {"links": 6, "seconds": 50, "period": 64 if factor > 1 else 192, "jitter": 0})
      for factor in (0.5, 1 / 3, 2, 3, 5)),
    *((f"a link sends {frames} frames too early", senders.early, {"frames": frames}) for frames in (1, 3, 20)),
    *((f"a link sends {frames} frames too fast", senders.too_fast, {"frames": frames}) for frames in (4, 40, 150)),
    *((f"frames come close together on {n} {times} times", senders.bunched, {"n": n, "times": times}) for n,
      times in (("A", 1), ("B", 1), ("A", 6))),
    *((f"{frames} frames of {links} links too long on {n}", senders.too_long, {"networks": n, "links": links, "frames": frames})
      for n, links, frames in (("A", 1, 1), ("B", 1, 30), ("AB", 1, 1), ("AB", 6, 9), ("A", 10, 3))),
    *((f"{frames} frames late on {n}", senders.late, {"n": n, "frames": frames}, LATE) for n,
      frames in (("A", 1), ("B", 1), ("A", 3), ("B", 12))),
    *((f"the way of {links} links on {n} gets longer", senders.skew_moves, {"n": n, "links": links}, {"links": 20, "jitter": 100})
      for n, links in (("A", 1), ("B", 1), ("B", 4))),
    *((f"{frames} frames of {links} links come twice on {n}", senders.twice, {"n": n, "links": links, "frames": frames})
      for n, links, frames in (("A", 1, 1), ("B", 1, 50), ("A", 4, 5))),
    ("all frames come twice on A", senders.all_twice, {"n": "A"}),
    ("all frames come twice on B", senders.all_twice, {"n": "B"}),
    *((f"{frames} frames after their successors on {n}", senders.reordered, {"n": n, "frames": frames}) for n,
      frames in (("A", 1), ("B", 1), ("A", 20))),
    *((f"{frames} frames with a wrong number on {n}", senders.wrong_numbers, {"n": n, "frames": frames}) for n,
      frames in (("A", 1), ("B", 1), ("A", 20))),
    *((f"{frames} strange frames on {n}", senders.strays, {"n": n, "frames": frames}) for n, frames in (("A", 1), ("B", 12))),
    *((f"{frames} frames come again on {n}", senders.replayed, {"n": n, "frames": frames}) for n, frames in (("A", 1), ("B", 12))),
    *((f"a number stands still for {frames} frames", senders.stuck, {"frames": frames}) for frames in (1, 3, 10, 100)),
    *((f"a number falls back by {back} and stands still", senders.frozen, {"back": back}) for back in (1, 2, 10, 40, 63, 64, 100)),
    *((f"frames on {n} come twice, far apart", senders.twice_later, {"n": n}, {"jitter": 0}) for n in ("A", "B")),
    *((f"all frames of a link cut short on {n}", senders.cut_whole, {"n": n}) for n in ("A", "B")),
    *((f"the last byte on {n} is no number", senders.no_number, {"n": n}) for n in ("A", "B", "AB")),
    *((f"numbers jump by {size}", senders.jump, {"size": size}) for size in (30, 100, 120, -80, -100)),
    *((f"a sender skips {size} numbers {times} times", senders.skipped, {"size": size, "times": times}) for size,
      times in ((1, 1), (2, 1), (1, 8))),
    *((f"the numbers on {n} are {size} greater", senders.apart, {"n": n, "size": size}, SLOW) for n,
      size in (("A", 50), ("B", 80), ("B", -70))),
    *((f"{frames} frames of {links} links cut short on {n}", senders.cut, {"n": n, "links": links, "frames": frames})
      for n, links, frames in (("A", 1, 1), ("B", 1, 20), ("A", 6, 4))),
    *((f"{frames} frames are {kind.__name__}", kind, {"n": n, "frames": frames})
      for kind in (senders.runt, senders.oversize, senders.foreign, senders.unconfigured) for n, frames in (("A", 1), ("B", 40))),
    ("short pauses are no outage", senders.short_pauses, {"times": 5}),
)
