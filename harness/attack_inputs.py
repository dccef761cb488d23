"""What tells each change from the program: an input for every must-fail edit of code, by its name.

Document 01's records and summaries, built by hand, and the requests that harness/attacks.py puts.
"""

import pathlib
import struct

ROOT = pathlib.Path(__file__).resolve().parent.parent
D = (ROOT / "samples" / "d.log").read_bytes()
GRAMS = 10**9
NOTHING = -(2**63)
FAR = 10**14


def opening(depth, value, floor=-GRAMS, ceiling=GRAMS):
    return struct.pack("<HHHiii", 18, 1, depth, value, floor, ceiling)


def short(depth, value):
    return struct.pack("<HHHi", 10, 1, depth, value)


def with_batch(depth, value, batch):
    return struct.pack("<HHHiiiI", 22, 1, depth, value, -GRAMS, GRAMS, batch)


def close(depth):
    return struct.pack("<HHH", 6, 2, depth)


def line(depth, value=1, floor=0, ceiling=9):
    """A line of a day table."""
    return struct.pack("<Hiii", depth, value, floor, ceiling)


def blank(mode):
    return struct.pack("<HHH", 6, 16, mode)


def spoilt(mode, fault, start, end, opened):
    return struct.pack("<HHHHHHI", 16, 17, mode, fault, start, end, opened)


def hill(mode, start, peak, end, opened, left, middle, right=()):
    """left from level start down to peak + 1; right from peak + 1 up, each a record's
    value, floor and ceiling and what it holds so far."""
    length = 24 + 8 * len(left) + 20 * len(right)
    head = struct.pack("<HHHHHHI", length, 18, mode, start, peak, end, opened)
    slopes = b"".join(struct.pack("<q", value) for value in [*left, middle])
    return head + slopes + b"".join(struct.pack("<iiiq", *record) for record in right)


def call(name, data, number=0, room=200):
    """A request: the call, its bytes, its number (a mode, where the right piece or
    an outer figure begins, an n, 8 times a page and a mode, 2^32 times a record number
    and another, or a farm) and how long its buffer is."""
    return f"{name} {number} {room} {data.hex() or '-'}"


def summarise(mode, chunk, room=200):
    return call("summarise::summarise", chunk, mode, room)


def merge(left, right, room=200):
    return call("merge::merge", left + right, len(left), room)


def write_log(*lines, room=200):
    return call("table::write_log", b"".join(lines), room=room)


def read_table(log, room=200):
    return call("table::read_table", log, room=room)


def small_days(n, room=200):
    return call("small_days::small_days", b"", n, room)


def heaviest_line(log, room=200):
    return call("heaviest_line::heaviest_line", log, room=room)


def sheet(log, mode=1, page=0, room=200, name="sheet::sheet"):
    return call(name, log, 8 * page + mode, room)


def common(log, a, b, name="common::common"):
    return call(name, log, (a << 32) + b)


def state(farms, mode=1):
    """A station's state: the summaries of some farms, each in its slot and filled up with zeros; the others are blank."""
    held = [farms.get(farm, blank(mode)) for farm in range(8)]
    return b"".join(summary + bytes(1788 - len(summary)) for summary in held)


def fresh(mode, before=b"\7" * 14304, name="farms::fresh"):
    return call(name, before, mode)


def send(farms, farm, summary, mode=1, name="farms::send"):
    return call(name, state(farms, mode) + summary, farm)


def end_of_day(farms, farm, mode=1, room=200, name="farms::end_of_day"):
    return call(name, state(farms, mode), farm, room)


def opened(number):
    """A spoilt summary that opened so many records."""
    return spoilt(1, 7, 0, 0, number)


def run(mode, *numbers):
    return struct.pack(f"<HHH{len(numbers)}q", 6 + 8 * len(numbers), 20, mode, *numbers)


def backwards(bytes_of_run, y=0, name="backwards::backwards"):
    """A run, and the outer figure behind it."""
    return call(name, bytes_of_run + struct.pack("<q", y), len(bytes_of_run))


def halves(mode, floor=0):
    """Log D cut after record 2, its first record with this floor."""
    none = NOTHING if mode in (2, 5) else 0
    last = 2**32 - 3 if mode == 4 else -3
    head = hill(mode, 0, 0, 2, 2, [], none, [(10, floor, 100, none), (5, 0, 4, none)])
    return head, hill(mode, 2, 0, 0, 1, [none, last], none)


def runs(mode, floor=0):
    return call("runs::runs", b"".join(halves(mode, floor)))


def held(*values):
    """A root of 5 g that holds a record for each value."""
    return short(0, 5) + b"".join(short(1, value) + close(1) for value in values) + close(0)


HEAD, TAIL = halves(1)
# Of one page, and of two.
SIXTY, SIXTY_ONE = held(*[7] * 59), held(*[7] * 60)
# Record 2 holds 3 and 4, and stands beside 1.
TANK = held(7)[:-6] + short(1, 5) + 2 * (short(2, 7) + close(2)) + close(1) + close(0)
# The line is of records 0, 1 and 2, and record 3, which stands beside 1, comes next.
BESIDE = short(0, 1) + short(1, 9) + short(2, 1) + close(2) + close(1) + short(1, 1) + close(1) + close(0)
# Record 2 is deeper than the line goes, which is of records 0 and 3.
LATER = short(0, 1) + short(1, 1) + short(2, 1) + close(2) + close(1) + short(1, 9) + close(1) + close(0)
WHOLE = hill(1, 0, 0, 0, 3, [], 12)
# A closed record of one gram at depth 1, and the two halves of what may hold it.
INSIDE = hill(1, 1, 1, 1, 1, [], 1)
OPEN = hill(1, 0, 0, 1, 1, [], 0, [(10, 0, 100, 0)])
SHUT = hill(1, 1, 0, 0, 0, [0], 0)
# A short record of 5 g that is open, sent while its floor was -10^9; and -8 g in it, and its close.
SENT_BEFORE = hill(5, 0, 0, 1, 1, [], NOTHING, [(5, -GRAMS, GRAMS, NOTHING)])
REST = hill(5, 1, 0, 0, 1, [-8], NOTHING)
# A close and an open at depth 1: from level 2 up to level 1 and down again.
CLOSE_AND_OPEN = hill(1, 2, 1, 2, 1, [0], 0, [(7, 0, 100, 0)])
# 10 g that holds 1 g, the inner closed by the second of three chunks and the outer by the third.
TWO_OPEN = hill(1, 0, 0, 2, 2, [], 0, [(10, 0, 100, 0), (1, 0, 100, 0)])
NESTED = TWO_OPEN + hill(1, 2, 1, 1, 0, [0], 0) + SHUT
# The same, and the second chunk has 7 g more in the outer one.
NESTED_AND_7 = TWO_OPEN + hill(1, 2, 1, 1, 1, [0], 7) + SHUT
# Log D whose first record has ceiling 11.
AT_MOST_11 = opening(0, 10, 0, 11) + D[18:]
# In mode 5, log D's first two records, the second of which holds 3 g already, and their closes.
HOLDS_3 = hill(5, 0, 0, 2, 3, [], NOTHING, [(10, 0, 100, NOTHING), (5, 0, 4, 3)])
HOLDS_3 += hill(5, 2, 0, 0, 0, [NOTHING, NOTHING], NOTHING)
NEGATIVE = opening(0, -3) + close(0)
TEN_OVER_MINUS_3 = opening(0, 10) + opening(1, -3) + close(1) + close(0)
TEN_OVER_5_AND_1 = short(0, 10) + short(1, 5) + close(1) + short(1, 1) + close(1) + close(0)
NINE = short(0, 0) + short(1, 9) + close(1) + short(1, 1) + close(1) + close(0)
TWO_DAYS = 2 * (short(0, 1) + close(0))
LONGEST = short(0, 1) + 4095 * (short(1, 1) + close(1)) + close(0)
# The day table of log D.
D_LINES = [line(0, 10, 0, 100), line(1, 5, 0, 4), line(1, -3, 0, 100)]

# What tells each edit from the program.
INPUTS = {
    "backwards/a_forgotten": backwards(run(1, 12, 0, 0), 13),
    "backwards/a_less_y": backwards(run(1, 12, 0, 0), 13),
    "backwards/a_unasked": backwards(run(1, FAR + 1, 0, 0)),
    "backwards/above_nothing": backwards(run(2, 0, FAR + 1, 0)),
    "backwards/always_31": backwards(run(4, 961, 72, 0), 1033),
    "backwards/even_taken": backwards(run(4, 30, 0, 0)),
    "backwards/farthest_refused": backwards(run(1, FAR, 0, 0)),
    "backwards/five_bytes": backwards(run(1, 12, 0, 0)[:5]),
    "backwards/fourth_is_third": backwards(run(5, 12, 12, 7, 6)),
    "backwards/from_0": backwards(run(4, 31, 10, 0), 11),
    "backwards/h_unasked": backwards(run(5, 12, 12, 7, FAR + 1)),
    "backwards/half_the_bits": backwards(run(4, 31, 10, 0), 11),
    "backwards/kind_of_line": backwards(run(1, 12, 0, 0), 13),
    "backwards/l_above_h": backwards(run(5, 12, 12, 7, 6)),
    "backwards/l_is_h_refused": backwards(run(5, 12, 12, 7, 7)),
    "backwards/last_step_of_31": backwards(run(4, 961, 72, 0), 1033),
    "backwards/length_of_net": backwards(run(5, 12, 12, 7, 11)),
    "backwards/m_unasked": backwards(run(4, 2**32 + 31, 0, 0)),
    "backwards/net_in_mode_0": backwards(run(1, 12, 0, 0), 13),
    "backwards/net_unasked": backwards(run(1, 12, 0, 0), FAR + 1),
    "backwards/no_run_is_16": backwards(run(2, FAR + 1, 7, 15)),
    "backwards/no_way_is_17": backwards(run(2, 15, 7, 15)),
    "backwards/nothing_is_0": backwards(run(2, 10, NOTHING, 10)),
    "backwards/odd_q": backwards(run(4, 30, 1, 0)),
    "backwards/odd_refused": backwards(run(4, 31, 10, 0), 11),
    "backwards/one_beyond": backwards(run(1, FAR + 1, 0, 0)),
    "backwards/other_unasked": backwards(run(2, 15, FAR + 1, 15)),
    "backwards/q_less_y": backwards(run(4, 31, 10, 0), 11),
    "backwards/q_unasked": backwards(run(4, 31, 2**32, 0)),
    "backwards/stamp_in_mode_3": backwards(run(4, 31, 10, 0), 11),
    "backwards/stamp_unasked": backwards(run(4, 31, 10, 0), -1),
    "backwards/step_from_1": backwards(run(4, 31, 10, 0), 11),
    "backwards/step_without_m": backwards(run(4, 31, 10, 0), 11),
    "backwards/third_of_stamp_above_0": backwards(run(4, 3, 1, 1)),
    "backwards/third_of_stamp_below_0": backwards(run(4, 3, 1, -1)),
    "backwards/third_unasked": backwards(run(1, 12, 0, 1)),
    "backwards/third_unread": backwards(run(1, 12, 0, 1)),
    "backwards/unused_above_0": backwards(run(1, 12, 1, 0)),
    "backwards/unused_below_0": backwards(run(1, 12, -1, 0)),
    "backwards/y_forgotten": backwards(run(1, 12, 0, 0), 13),
    "codec/deeper_dropped": merge(HEAD, TAIL),
    "codec/floor_lost": merge(SENT_BEFORE, REST),
    "codec/held_over_ceiling": merge(hill(1, 0, 0, 1, 2, [], 0, [(10, 0, 100, 5)]), SHUT),
    "codec/middle_left_out": merge(HEAD, hill(1, 2, 1, 1, 1, [0], 7)),
    "common/a_one_too_large": common(D, 3, 0),
    "common/all_but_the_earlier": common(D, 1, 2),
    "common/b_not_looked_at": common(D, 1, 2),
    "common/b_one_too_large": common(D, 0, 3),
    "common/close_as_open": common(D, 1, 2),
    "common/closes_not_looked_at": common(D, 1, 2),
    "common/counted_from_1": common(D, 1, 2),
    "common/each_fault_11": common(D[:71], 1, 2),
    "common/each_open_the_earlier": common(D, 1, 2),
    "common/earlier_alone": common(D, 1, 2),
    "common/either_is_enough": common(D, 0, 3),
    "common/fault_gets_19": common(b"", 0, 0),
    "common/last_close_alone": common(TANK, 1, 4),
    "common/later_alone": common(D, 1, 2),
    "common/later_first": common(D, 1, 2),
    "common/more_for_fewer": common(D, 1, 2),
    "common/nineteen_as_18": common(D, 0, 3),
    "common/one_too_deep": common(D, 1, 2),
    "common/one_too_high": common(D, 1, 1),
    "common/one_way_round": common(D, 2, 1),
    "common/only_a_asked": common(D, 0, 3),
    "common/only_b_asked": common(D, 3, 0),
    "common/opens_not_counted": common(D, 1, 1),
    "common/parent_of_the_earlier": common(D, 1, 1),
    "common/parent_of_the_later": common(TANK, 1, 4),
    "common/root_always": common(D, 2, 2),
    "common/stops_before_the_later": common(D, 1, 2),
    "common/up_to_the_earlier": common(D, 1, 2),
    "day/drop_bound": call("day::figures", D),
    "day/fault_not_told": call("day::figures", short(0, 1)),
    "day/nothing_is_0": call("day::figures", TEN_OVER_MINUS_3),
    "day/rest_unread": call("day::figures", D),
    "day/seven_unread": call("day::figures", D),
    "day/stamp_for_eaten": call("day::figures", D),
    "day_line/figures_swapped": call("day_line::text", D),
    "day_line/no_newline": call("day_line::text", D),
    "day_line/refusal_always_10": call("day_line::text", D[:71]),
    "day_line/refusal_space": call("day_line::text", b""),
    "emit/floor_unwritten": summarise(5, opening(0, 5)),
    "emit/left_values_unwritten": summarise(1, D[36:]),
    "emit/peak_counted_twice": merge(HEAD, TAIL, 24),
    "emit/record_after_the_last": summarise(1, D[:36]),
    "emit/sixteen_refused": merge(OPEN, OPEN, 16),
    "emit/start_for_end": summarise(1, D[:36]),
    "farms/before_the_send": send({}, 0, opened(30_001)),
    "farms/blank_of_net": fresh(2),
    "farms/each_refusal_5": send({}, 0, blank(2)),
    "farms/emptied_and_12": end_of_day({3: opened(5)}, 3),
    "farms/end_20_as_12": end_of_day({}, 8),
    "farms/first_byte_over": fresh(1),
    "farms/first_farm_eight_times": send({0: opened(20_000)}, 1, opened(5)),
    "farms/first_farm_made_blank": end_of_day({3: opened(5)}, 3),
    "farms/last_farm_not_blank": fresh(1),
    "farms/last_farm_not_counted": send({7: opened(30_000)}, 0, opened(10_001)),
    "farms/left_end": send({3: HEAD}, 3, TAIL),
    "farms/mode_gets_5": fresh(3),
    "farms/no_summary_12": end_of_day({3: b"\6\0"}, 3),
    "farms/one_byte_more": end_of_day({}, 3, room=6),
    "farms/opened_elsewhere": send({}, 0, opened(5)),
    "farms/own_10_001": send({0: opened(30_000)}, 1, opened(10_001)),
    "farms/own_9_999": send({0: opened(30_000)}, 1, opened(10_000)),
    "farms/send_20_as_5": send({}, 8, opened(5)),
    "farms/sender_alone": send({0: opened(30_000)}, 1, opened(10_001)),
    "farms/sent_to_the_first": send({}, 3, opened(5)),
    "farms/spoilt_not_counted": send({}, 0, opened(30_001)),
    "farms/stored_and_21": send({}, 0, opened(5)),
    "farms/stored_for_the_first": send({}, 3, opened(5)),
    "farms/takes_20_001": send({}, 0, opened(30_001)),
    "farms/too_long_holds_nothing": send({3: struct.pack("<HHHHHHI", 1789, 17, 1, 7, 0, 0, 30_000)}, 0, opened(10_001)),
    "fault/eight_before_seven": summarise(1, close(0) + short(1, 1)),
    "fault/ground_not_asked": summarise(1, TWO_DAYS),
    "fault/no_fault_found": summarise(1, short(0, 1) + TWO_DAYS),
    "fault/takes_100001": call("plan::plan", hill(1, 0, 0, 1, 50_001, [], 0, [(10, 0, 100, 0)]) + hill(1, 1, 0, 0, 50_000, [0], 0)),
    "figure/empty_run_bound": runs(5),
    "figure/empty_run_from_a": call("runs::runs", HOLDS_3),
    "figure/floor_as_ceiling": call("day::figures", D),
    "figure/floor_once": runs(5, 50),
    "figure/last_held": call("day::figures", TEN_OVER_5_AND_1),
    "figure/leaf_bound": call("day::figures", D),
    "figure/mode_3_in_use": merge(blank(3), blank(3)),
    "figure/none_bound": call("day::figures", AT_MOST_11),
    "figure/nothing_moved": runs(2),
    "figure/nothing_zero_in_mode_5": summarise(5, D[:36]),
    "figure/other_figure_dropped": runs(2),
    "figure/second_held_forgotten": call("day::figures", D),
    "figure/sides_unbound": call("runs::runs", HOLDS_3),
    "figure/stamp_factor": call("day::figures", D),
    "finish/blank_is_11": call("finish::finish", blank(1)),
    "finish/end_level_ignored": call("finish::finish", OPEN),
    "finish/start_level_for_fault": call("finish::finish", spoilt(1, 8, 3, 0, 2)),
    "gate/numbers_from_zero": call("finish::finish", blank(1)),
    "gate/page_and_record_exchanged": sheet(D, page=1),
    "heaviest_line/always_one_number": heaviest_line(D),
    "heaviest_line/close_as_open": heaviest_line(D),
    "heaviest_line/closes_numbered": heaviest_line(D),
    "heaviest_line/counted_from_1": heaviest_line(D),
    "heaviest_line/deeper_not_counted": heaviest_line(LATER),
    "heaviest_line/each_fault_11": heaviest_line(D[:71]),
    "heaviest_line/end_forgotten": heaviest_line(D),
    "heaviest_line/from_one": heaviest_line(D),
    "heaviest_line/full_buffer_refused": heaviest_line(D, 8),
    "heaviest_line/last_left_out": heaviest_line(D),
    "heaviest_line/latest_of_equals": heaviest_line(held(2, 2)),
    "heaviest_line/no_end_seen": heaviest_line(D),
    "heaviest_line/none_below_0": heaviest_line(short(0, -5) + close(0)),
    "heaviest_line/one_number_short": heaviest_line(D),
    "heaviest_line/one_record_too_far": heaviest_line(BESIDE),
    "heaviest_line/open_not_counted": heaviest_line(D),
    "heaviest_line/root_alone": heaviest_line(held(1, 2)),
    "heaviest_line/short_11": heaviest_line(D, 7),
    "heaviest_line/siblings_added": heaviest_line(held(1, 2)),
    "heaviest_line/stops_at_its_value": heaviest_line(held(-2)),
    "heaviest_line/sum_of_the_holder": heaviest_line(held(1, 2)),
    "heaviest_line/sum_not_kept": heaviest_line(held(2, 1)),
    "heaviest_line/two_bytes_a_number": heaviest_line(D),
    "heaviest_line/value_left_out": heaviest_line(held(1, 2)),
    "judge/byte_too_many": backwards(b"\x1f" + run(1, 12, 0, 0)[1:] + b"\0", 13),
    "judge/end_for_peak": call("plan::plan", HEAD + TAIL),
    "judge/fault_10": call("finish::finish", spoilt(1, 10, 0, 0, 1)),
    "judge/ground_passed": call("finish::finish", hill(1, 2, 0, 1, 1, [0, 0], 0, [(0, 0, 0, 0)])),
    "judge/hill_100001": call("finish::finish", hill(1, 0, 0, 0, 100_001, [], 0)),
    "judge/hill_start_cut": call("work::work", hill(1, 256, 0, 0, 1, [0] * 256, 0) + blank(1)),
    "judge/length_field_low": backwards(b"\x1d" + run(1, 12, 0, 0)[1:], 13),
    "judge/one_gram_more": call("finish::finish", hill(1, 0, 0, 0, 1, [], GRAMS + 1)),
    "judge/seven_named_eight": call("finish::finish", spoilt(1, 7, 0, 0, 2)),
    "judge/spoilt_without_fault": merge(spoilt(1, 8, 0, 1, 2), blank(1)),
    "judge/start_and_end_exchanged": merge(HEAD, TAIL),
    "judge/spoilt_start_256": merge(spoilt(1, 8, 256, 0, 1), blank(1)),
    "merge/hands_back_left": merge(HEAD, TAIL),
    "merge/modes_not_compared": merge(HEAD, halves(4)[1]),
    "merge_row/modes_of_row_not_compared": call("merge_row::merge_row", HEAD + halves(4)[1]),
    "merge_row/takes_65": call("merge_row::merge_row", 65 * blank(1)),
    "merge_row/two_pieces_as_one": call("merge_row::merge_row", 2 * blank(1) + HEAD + TAIL),
    "merging/counts_before_piece": merge(HEAD, TAIL),
    "merging/end_for_peak": merge(OPEN, hill(1, 1, 1, 2, 1, [], 0, [(5, 0, 4, 0)])),
    "merging/greater_peak": merge(CLOSE_AND_OPEN, hill(1, 2, 2, 2, 1, [], 1)),
    "merging/join_turned_round": merge(HEAD, TAIL),
    "merging/nothing_cleared": call("merge_row::merge_row", OPEN + INSIDE + INSIDE + SHUT),
    "merging/opened_not_cut": merge(spoilt(1, 9, 0, 1, 100_001), INSIDE),
    "merging/right_fault_ignored": merge(spoilt(1, 8, 0, 1, 2), spoilt(1, 7, 1, 0, 2)),
    "merging/start_for_peak": merge(CLOSE_AND_OPEN, blank(1)),
    "number/big_endian_read": call("record::read_first", D),
    "number/big_endian_write": summarise(1, D),
    "number/product_not_wrapped": call("day::figures", TEN_OVER_MINUS_3),
    "number/sign_bit_not_written": summarise(1, opening(0, -3)),
    "number/sign_lost": call("record::read_first", NEGATIVE),
    "outcome/fourth_in_mode_4": runs(5),
    "outcome/length_of_five": runs(5),
    "outcome/runs_of_38": runs(1),
    "plan/ends_for_peaks": call("plan::plan", HEAD + TAIL),
    "plan/fit_of_runs": call("plan::plan", HEAD + TAIL, room=12),
    "plan/line_after_the_last": call("plan::plan", HEAD + TAIL),
    "plan/line_kind": call("plan::plan", HEAD + TAIL),
    "plan/lowest_depth": call("plan::plan", HEAD + TAIL),
    "plan/no_line_written": call("plan::plan", HEAD + TAIL),
    "plan/refused_though_written": call("plan::plan", HEAD + TAIL),
    "plan/twelve_for_faults": call("plan::plan", OPEN + OPEN),
    "record/batch_dropped": call("record::read_first", with_batch(0, 5, 7)),
    "record/batch_is_ceiling": call("record::read_first", with_batch(0, 5, 7)),
    "record/batch_is_next": call("record::read_first", with_batch(0, 5, 7)),
    "record/batch_of_18": call("record::read_first", D),
    "record/batch_sign_bit": call("record::read_first", with_batch(0, 5, 2**32 - 1)),
    "record/ceiling_unlimited": call("finish::finish", hill(1, 0, 0, 1, 1, [], 0, [(10, 0, GRAMS + 1, 0)])),
    "record/close_of_7": call("record::read_first", close(1)),
    "record/close_of_8": call("record::read_first", close(1)),
    "record/default_ceiling": call("record::read_first", short(0, -5)),
    "record/default_floor": call("record::read_first", short(0, -5)),
    "record/depth_64": call("record::read_first", close(64)),
    "record/floor_equals_ceiling": call("record::read_first", opening(0, 1, 5, 5)),
    "record/floor_over_ceiling": call("record::read_first", D),
    "record/length_11": call("record::read_first", short(0, -5)),
    "record/length_26": call("record::read_first", with_batch(0, 5, 7)),
    "record_writer/close_as_open": write_log(line(0)),
    "record_writer/close_of_length_10": write_log(line(0)),
    "record_writer/short_of_length_18": small_days(1),
    "record_writer/value_over_depth": small_days(2),
    "row/length_7": call("merge_row::merge_row", 2 * blank(1)),
    "row/length_field_off": call("merge_row::merge_row", blank(1) + HEAD),
    "row_gate/blank_at_ground": call("plan::plan", OPEN + blank(1) + SHUT),
    "row_gate/meets_is_7": call("plan::plan", OPEN + OPEN),
    "row_gate/modes_not_compared": call("plan::plan", HEAD + halves(4)[1]),
    "row_gate/spoils_a_note": call("row_gate::open_row", HEAD + halves(4)[1]),
    "row_gate/spoils_the_last_note": call("row_gate::open_row", HEAD + TAIL),
    "row_gate/peaks_for_ends": call("plan::plan", HEAD + TAIL),
    "row_plan/levels_invented": call("work::work", HEAD + TAIL),
    "row_plan/no_shared_record": call("plan::plan", OPEN + INSIDE + SHUT),
    "run_level/no_hill_at_ground": call("run_level::place_of", OPEN + blank(1) + SHUT, 1),
    "run_level/floor_is_ceiling": runs(5),
    "run_level/piece_begins_at_its_number": runs(1),
    "run_level/start_for_peak": call("runs::runs", HEAD + CLOSE_AND_OPEN + TAIL),
    "runs/ends_for_peaks": runs(1),
    "runs/fit_of_30": runs(5),
    "runs/floor_as_ceiling": runs(5),
    "runs/hills_swapped": runs(1),
    "runs/inside_out": runs(5),
    "runs/kind_of_run": runs(1),
    "runs/levels_left_out": runs(1),
    "runs/low_for_high": runs(5),
    "runs/no_run_written": runs(1),
    "runs/peaks_for_starts": runs(1),
    "runs/refused_though_written": runs(1),
    "runs/run_after_the_last": runs(1),
    "runs/twelve_for_faults": call("runs::runs", OPEN + OPEN),
    "sheet/all_at_depth_0": sheet(D),
    "sheet/always_net": sheet(D, mode=2),
    "sheet/always_the_first_page": sheet(SIXTY_ONE, page=1),
    "sheet/always_the_root": sheet(D),
    "sheet/close_as_open": sheet(D),
    "sheet/counted_from_1": sheet(D),
    "sheet/depth_a_column_on": sheet(D),
    "sheet/depth_for_number": sheet(D),
    "sheet/each_fault_11": sheet(D[:71]),
    "sheet/fifteen_columns": sheet(D),
    "sheet/fifty_nine_lines": sheet(SIXTY, room=1700),
    "sheet/first_left_out": sheet(D),
    "sheet/first_of_the_next_page": sheet(SIXTY_ONE, room=1700),
    "sheet/floor_for_ceiling": sheet(D, mode=5),
    "sheet/full_buffer_refused": sheet(D, room=81),
    "sheet/lines_of_the_first_page": sheet(SIXTY_ONE, page=1, room=1700),
    "sheet/middle_printed": sheet(D),
    "sheet/mode_gets_5": sheet(D, mode=3),
    "sheet/mode_unasked": sheet(D, mode=3),
    "sheet/no_newline": sheet(D),
    "sheet/nothing_is_0": sheet(held(-9), mode=2),
    "sheet/number_not_kept": sheet(D),
    "sheet/numbers_of_the_first_page": sheet(SIXTY_ONE, page=1),
    "sheet/open_not_counted": sheet(D),
    "sheet/page_0": sheet(D, page=1),
    "sheet/pages_of_61": sheet(SIXTY_ONE, page=1),
    "sheet/past_by_one": sheet(SIXTY, page=1),
    "sheet/past_gets_12": sheet(D, page=1),
    "sheet/sixty_one_lines": sheet(SIXTY_ONE, room=1700),
    "sheet/value_alone": sheet(D),
    "sheet/without_the_newline": sheet(D),
    "slopes/add_drops_what_was_held": summarise(1, opening(1, 5) + close(1) + opening(1, 7) + close(1)),
    "slopes/close_ceiling_as_floor": summarise(5, D),
    "slopes/floor_and_ceiling_exchanged": summarise(5, D),
    "slopes/left_level_twice": summarise(1, close(3)),
    "slopes/push_at_the_first": summarise(1, opening(0, 10) + opening(1, 5) + close(1) + opening(1, 7)),
    "slopes/top_ceiling_as_floor": summarise(5, D),
    "small_days/always_the_first": small_days(3),
    "small_days/close_at_wrong_depth": small_days(2),
    "small_days/closes_not_counted": small_days(1),
    "small_days/count_at_level_1": small_days(2),
    "small_days/eight_refused": small_days(8, 54_912),
    "small_days/every_other": small_days(3),
    "small_days/first_missing": small_days(3),
    "small_days/first_twice": small_days(3),
    "small_days/first_value_0": small_days(1),
    "small_days/fits_refused": small_days(8, 54_912),
    "small_days/last_missing": small_days(8, 54_912),
    "small_days/last_uncounted": small_days(8, 54_912),
    "small_days/logs_over_each_other": small_days(3),
    "small_days/one_open_too_many": small_days(3),
    "small_days/outside_12": small_days(0),
    "small_days/rest_over_the_open": small_days(1),
    "small_days/root_at_1": small_days(1),
    "small_days/row_for_column": small_days(3),
    "small_days/short_14": small_days(8, 54_911),
    "small_days/takes_0": small_days(0),
    "small_days/takes_9": small_days(9),
    "small_days/twelve_first": small_days(9, 0),
    "small_days/two_open": small_days(1),
    "small_days/value_0": small_days(2),
    "summarise/always_blank": summarise(1, D),
    "summarise/first_chunk_only": summarise(1, D[36:]),
    "summarise/peak_over_1": summarise(1, D[36:]),
    "summarise/takes_65537": summarise(1, LONGEST + b"\0"),
    "summarise/twelve_before_reading": summarise(1, D[:71], 0),
    "table/always_one_line": read_table(D),
    "table/asks_13_before_3": write_log(line(1), line(64)),
    "table/close_at_wrong_depth": write_log(line(0), line(1)),
    "table/close_missing_at_a_fall": write_log(*D_LINES),
    "table/close_missing_at_the_end": write_log(line(0)),
    "table/closes_not_counted": write_log(line(0)),
    "table/default_floor_forgotten": read_table(short(0, 1) + close(0)),
    "table/each_fault_11": read_table(D[:71]),
    "table/first_line_asked": write_log(line(0), line(64)),
    "table/floor_unasked": write_log(line(0, 1, 5, 4)),
    "table/jump_by_two": write_log(line(0), line(2)),
    "table/line_exchanged": read_table(D),
    "table/lines_of_15": read_table(D, 42),
    "table/lines_of_closes": read_table(D),
    "table/lines_over_each_other": read_table(D),
    "table/no_line_13": write_log(),
    "table/no_line_written": read_table(D),
    "table/no_open_written": write_log(*D_LINES),
    "table/one_line_too_many": write_log(line(0), *12 * [line(1)], room=400),
    "table/open_as_close": write_log(line(0)),
    "table/open_exchanged": write_log(line(0)),
    "table/ragged_taken": write_log(line(0)[:7]),
    "table/second_0_taken": write_log(line(0), line(0)),
    "table/table_as_records": read_table(D),
    "table/takes_2731": write_log(line(0), *2730 * [line(1)], room=65_544),
    "table/twelve_first": write_log(line(1), room=0),
    "table/value_unasked": write_log(line(0, GRAMS + 1)),
    "text/leading_zero": call("day_line::text", NINE),
    "text/left_aligned": sheet(D),
    "text/minus_sign": call("day_line::text", NEGATIVE),
    "text/not_filled": sheet(D),
    "text/sign_not_counted": sheet(D),
    "text/zero_digit": call("day_line::text", D),
    "text/zeros_for_blanks": sheet(D),
    "tulghimo/backwards_from_0": backwards(run(1, 12, 0, 0), 13, "tulghimo::tulghimo_backwards"),
    "tulghimo/backwards_refused": backwards(run(1, 12, 0, 0), 13, "tulghimo::tulghimo_backwards"),
    "tulghimo/common_a_twice": common(D, 1, 2, name="tulghimo::tulghimo_common"),
    "tulghimo/common_refused": common(D, 1, 2, name="tulghimo::tulghimo_common"),
    "tulghimo/day_always_10": call("tulghimo::tulghimo_day", D[:71]),
    "tulghimo/day_of_a_part": call("tulghimo::tulghimo_day", D),
    "tulghimo/day_stamp_for_eaten": call("tulghimo::tulghimo_day", D),
    "tulghimo/farms_end_of_the_first": end_of_day({3: opened(5)}, 3, name="tulghimo::tulghimo_farms_end_of_day"),
    "tulghimo/farms_end_refused": end_of_day({3: opened(5)}, 3, name="tulghimo::tulghimo_farms_end_of_day"),
    "tulghimo/farms_fresh_in_net": fresh(2, name="tulghimo::tulghimo_farms_fresh"),
    "tulghimo/farms_fresh_refused": fresh(1, name="tulghimo::tulghimo_farms_fresh"),
    "tulghimo/farms_send_refused": send({}, 3, opened(5), name="tulghimo::tulghimo_farms_send"),
    "tulghimo/farms_send_to_the_first": send({}, 3, opened(5), name="tulghimo::tulghimo_farms_send"),
    "tulghimo/figure_always_5": call("tulghimo::tulghimo_finish", blank(1)),
    "tulghimo/figure_zero": call("tulghimo::tulghimo_finish", WHOLE),
    "tulghimo/finish_always_12": call("tulghimo::tulghimo_finish", blank(1)),
    "tulghimo/finish_refused": call("tulghimo::tulghimo_finish", WHOLE),
    "tulghimo/heaviest_line_always_one_number": call("tulghimo::tulghimo_heaviest_line", D),
    "tulghimo/heaviest_line_refused": call("tulghimo::tulghimo_heaviest_line", D),
    "tulghimo/merge_left_twice": call("tulghimo::tulghimo_merge", HEAD + TAIL, len(HEAD)),
    "tulghimo/merge_row_always_6": call("tulghimo::tulghimo_merge_row", HEAD + TAIL),
    "tulghimo/merge_row_refused": call("tulghimo::tulghimo_merge_row", HEAD + TAIL),
    "tulghimo/merge_swapped": call("tulghimo::tulghimo_merge", HEAD + TAIL, len(HEAD)),
    "tulghimo/name_0_for_all": common(D, 2, 2, name="tulghimo::tulghimo_common"),
    "tulghimo/name_always_19": common(b"", 0, 0, name="tulghimo::tulghimo_common"),
    "tulghimo/plan_always_one_line": call("tulghimo::tulghimo_plan", NESTED),
    "tulghimo/plan_refused": call("tulghimo::tulghimo_plan", HEAD + TAIL),
    "tulghimo/read_no_batch": call("tulghimo::tulghimo_read_record", with_batch(0, 5, 7)),
    "tulghimo/read_table_always_one_line": call("tulghimo::tulghimo_read_table", D),
    "tulghimo/read_table_refused": call("tulghimo::tulghimo_read_table", D),
    "tulghimo/refusal_positive": call("tulghimo::tulghimo_read_record", b""),
    "tulghimo/runs_always_one": call("tulghimo::tulghimo_runs", NESTED),
    "tulghimo/runs_refused": call("tulghimo::tulghimo_runs", HEAD + TAIL),
    "tulghimo/sheet_page_0": sheet(D, page=1, name="tulghimo::tulghimo_sheet"),
    "tulghimo/sheet_refused": sheet(D, name="tulghimo::tulghimo_sheet"),
    "tulghimo/small_days_of_1": call("tulghimo::tulghimo_small_days", b"", 2),
    "tulghimo/small_days_refused": call("tulghimo::tulghimo_small_days", b"", 1),
    "tulghimo/status_always_12": call("tulghimo::tulghimo_merge_row", 65 * blank(1)),
    "tulghimo/summarise_always_net": call("tulghimo::tulghimo_summarise", D, 4),
    "tulghimo/summarise_refused": call("tulghimo::tulghimo_summarise", D, 1),
    "tulghimo/taken_always_21": send({}, 8, opened(5), name="tulghimo::tulghimo_farms_send"),
    "tulghimo/taken_told_more": send({}, 3, opened(5), name="tulghimo::tulghimo_farms_send"),
    "tulghimo/work_always_4": call("tulghimo::tulghimo_work", OPEN + OPEN),
    "tulghimo/work_levels_for_joins": call("tulghimo::tulghimo_work", HEAD + TAIL),
    "tulghimo/work_no_figure": call("tulghimo::tulghimo_work", HEAD + TAIL),
    "tulghimo/work_of_a_part": call("tulghimo::tulghimo_work", HEAD + TAIL),
    "tulghimo/write_log_always_one_line": call("tulghimo::tulghimo_write_log", b"".join(D_LINES)),
    "tulghimo/write_log_refused": call("tulghimo::tulghimo_write_log", b"".join(D_LINES)),
    "whole_log/batch_counted": summarise(1, with_batch(0, 5, 7)),
    "whole_log/close_stays": call("day::figures", D),
    "whole_log/closes_counted": summarise(1, D),
    "whole_log/end_level": call("day::figures", short(0, 1)),
    "whole_log/fault_not_told": call("whole_log::ask", short(0, 1)),
    "whole_log/joint_not_asked": summarise(1, opening(0, 10) + opening(0, 10)),
    "whole_log/rest_unread": call("whole_log::ask", D),
    "whole_log/start_level": call("day::figures", close(0)),
    "whole_log/takes_65537": call("whole_log::ask", LONGEST + b"\0"),
    "whole_log/ten_not_asked": call("day::figures", b""),
    "work/first_outcome": call("work::work", NESTED),
    "work/highest_level_only": call("work::work", HEAD + TAIL),
    "work/joins_invented": call("work::work", HEAD + TAIL),
    "work/left_value_dropped": call("work::work", HEAD + TAIL),
    "work/middles_by_start": call("work::work", NESTED_AND_7),
    "work/no_earlier_outcomes": call("work::work", NESTED),
    "work/no_middles": call("work::work", OPEN + INSIDE + SHUT),
    "work/outcomes_at_highest": call("work::work", NESTED),
    "work/refusal_invented": call("work::work", OPEN + OPEN),
}
