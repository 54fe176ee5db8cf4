"""What each case of refused_growths answers where nothing is refused, worked by hand or as other programs wrote it."""

ONE_SAMPLE = "0a04080110021206" "0a0101120107" "2206080122020801" "2a0408011003" "3200" "3203637075" "32026e73" "320166"

EACH_FIELD = (
    "0a0408011002" "121a0a02ac02120affffffffffffffffff011a080801100218032004"
    "1a12080b100c180d200e28053006380148015001" "220d08ac02100b2204081510162801" "2a0a08151001180220032804"
    "3200" + 9 * "3202c3a9" + "3801" "4002" "48fdffffffffffffffff01" "5004" "5a0408051006" "6007" "6a0109" "7008"
)

PAIRS = "main;a 1\nmain;b 3\n|main;a 2\nmain;b 4\n|"
SORTED = "main;a 2\nmain;a;b 3\nmain;c 5\n"
BY_CUM = "total 10\n0 10 main\n2 5 a\n5 5 c\n"
BY_FLAT = "total 10\n5 5 c\n3 3 b\n2 5 a\n"
GROWN = (
    "e;f;g;h 1\nmain;a 9\nmain;a;b 3\nmain;c 5\nmain;d 4\n|[22]|"
    "a 9/12 b 3/3 c 5/5 d 4/4 e 0/1 f 0/1 g 0/1 h 1/1 main 0/21 "
)


def rect(depth, name, x, weight, left, right):
    """A rectangle in a layout's text."""
    return f'{{"depth":{depth},"left":{left},"name":"{name}","right":{right},"weight":{weight},"x":{x}}}'


def layout(columns, total, *rects):
    """A layout's text."""
    return f'{{"columns":{columns},"rects":[{",".join(rects)}],"total":{total}}}'


WORKED_LAYOUT = layout(
    10, 10, rect(0, "", 0, 10, 0, 10), rect(1, "main", 0, 10, 0, 10), rect(2, "a", 0, 5, 0, 5),
    rect(3, "b", 0, 3, 0, 3), rect(2, "c", 5, 5, 5, 10),
)
FOUR_COLUMNS = layout(
    4, 10, rect(0, "", 0, 10, 0, 4), rect(1, "main", 0, 10, 0, 4), rect(2, "a", 0, 5, 0, 2),
    rect(3, "b", 0, 3, 0, 1), rect(2, "c", 5, 5, 2, 4),
)
FIVE_COLUMNS = layout(
    5, 10, rect(0, "", 0, 10, 0, 5), rect(1, "main", 0, 10, 0, 5), rect(2, "a", 0, 5, 0, 2),
    rect(3, "b", 0, 3, 0, 1), rect(2, "c", 5, 5, 2, 5),
)
ONE_COLUMN = layout(1, 10, rect(0, "", 0, 10, 0, 1), rect(1, "main", 0, 10, 0, 1), rect(2, "c", 5, 5, 0, 1))
GREATEST = 2**63 - 1
GREATEST_LAYOUT = layout(
    65535, GREATEST, rect(0, "", 0, GREATEST, 0, 65535), rect(1, "a", 0, GREATEST, 0, 65535)
)


def line_layout(weight, *names):
    """The layout of one stack in ten columns."""
    rects = [rect(depth, name, 0, weight, 0, 10) for depth, name in enumerate(["", *names])]
    return layout(10, weight, *rects)


BYTES = {
    "write_varint": "01ac02",
    "write_field": "013214" + 20 * "07",
    "write_field_of_a_number": "0148ac02",
    "check": EACH_FIELD,
    "check_of_one_sample": ONE_SAMPLE,
    "check_of_a_wrong_index": "P6 StringIndex 4",
    "decode": ONE_SAMPLE,
    "decode_each_field": EACH_FIELD,
    "decode_of_no_utf8": "P3 NotUtf8",
    "encode": EACH_FIELD,
    "encode_of_one_sample": ONE_SAMPLE,
    "items_push": "[5, 6]",
    "items_reserve": "[5]",
    "samples_push": "[SampleRef { location_ids: [3, 4], values: [-5], labels: "
    "[Label { key: 1, text: 2, num: 3, num_unit: 4 }] }]",
    "text_copied": "cpu",
    "written_samples_push": ONE_SAMPLE,
    "encode_around": ONE_SAMPLE,
}

ROWS = {
    "name_make": "main",
    "name_make_of_no_name": "L1 BadName",
    "name_keep": "main",
    "name_clean": "a:b c",
    "name_clean_of_one_semicolon": "Lx:",
    "name_share": "main main",
    "stack_share": "main;a;b",
    "batch_push": "a 1\nb 3\nc 5\nd 7\nmain;e 10\n|a 2\nb 4\nc 6\nd 8\nmain;e 20\n|[26, 40]",
    "batch_push_of_a_heavy_row":
        "Q1 Heavy value 1 held 9223372036854775807 main;e a 1\n|a 9223372036854775807\n|",
    "batch_with_capacity": "0 rows",
    "batch_share": "main;a 1\nb 3\n|main;a 2\nb 4\n|",
    "batch_into_rows": "main;a [1, 2] b [3, 4] ",
    "batch_weighted_stacks": "main;a 2\nb 4\n",
    "weighted_stacks_push": "a 1\nb;c 2\n3",
    "weighted_stacks_share": "a 1\nb;c 2\n",
    "weighted_stacks_with_capacity": "0 rows",
    "aggregate": "b 3\nmain;a 6\n|b 4\nmain;a 8\n|",
    "aggregate_of_odd_lines": " 5\na;b 1\na b;c d 7\n|",
    "aggregate_stacks": "b 3\nmain;a 6\n",
    "kept_totals": "total 2\n2 2 a\n0 2 main\n",
    "counted_rows_count":
        "total 5\n0 5 main\n3 3 b\n" + "".join(f"0 3 {name}\n" for name in "cdefghijklmn") + "2 2 a\n",
    "counted_rows_totals": "total 2\n2 2 a\n0 2 main\n",
    "numbered_row_replace": "0 main,2 b,3 c,4 d,5 e,6 f,7 g,8 h,9 i,10 j,11 k,2 b,",
    "read_folded": "main;a;b 3\nmain;a 2\nmain;c 5\n|",
    "read_folded_of_many_rows": "50 rows, 51 names",
    "read_folded_of_no_count": "F2 NoCount line 3",
    "read_ordered": " 4\nmain;a 2\nmain;a;b 3\nmain;c 6\n",
    "read_ordered_of_empty_frames": "b 4\nb;a 3\n",
    "ordered_rows_write": " 4\nmain;a 2\nmain;a;b 3\nmain;c 6\n",
    "ordered_rows_write_by_names": "b 4\nb;a 3\n",
    "folded_totals": BY_CUM + "3 3 b\n",
    "line_sums_add": " 13\na;b 1\na b;c d 7\nmain;a 4\nmain;a;b 6\nmain;c 12\n",
    "line_sums_stacks": " 4\nmain;a 2\nmain;a;b 3\nmain;c 6\n",
    "write_folded": "main;a 2\nb 4\n",
    "write_folded_of_odd_lines": " 5\na;b 1\na b;c d 7\n",
    "write_stacks": "a 1\nb;c 2\n",
    "ordered_rows_of_texts": "a;b 2\nb 1\nc 4\n",
}

SAMPLES = {
    "unfold": "a;b;c;0xff",
    "unfold_of_a_cleaned_name": "Lx:",
    "batch_of": "0xff;c;b;a 2\n|",
    "batch_of_a_cleaned_name": "Lx: 7\n|",
    "batch_of_all_values": "f 3\n|f 30\n|",
    "batch_of_no_value": "B1 NoValue",
    "batch_of_a_negative_value": "B2 Negative sample 0",
    "merge_samples": "0xff;c;b;a 2\n",
    "sample_totals": "total 2\n0 2 0xff\n2 2 a\n0 2 b\n0 2 c\n",
    "profile_of": "f 3\n|f 30\n|",
    "profile_of_one_row": ONE_SAMPLE,
    "export_folded": ONE_SAMPLE,
}

TREES = {
    "grower_new": "||[0, 0]|",
    "grower_plan": GROWN,
    "grower_plan_of_pairs":
        "c 7\nmain;a 1\nmain;b 8\n|c 8\nmain;a 2\nmain;b 10\n|[16, 20]|"
        "a 1/1 b 8/8 c 7/7 main 0/9 a 2/2 b 10/10 c 8/8 main 0/12 ",
    "grower_plan_over_pages": "140 rows, 141 names, 145, before 125",
    "grower_plan_reset":
        "|[0]|; e;f;g;h 1\nmain;a 7\nmain;d 4\n|[12]|a 7/7 d 4/4 e 0/1 f 0/1 g 0/1 h 1/1 main 0/11 ",
    "grower_add":
        "main;a 2\nmain;a;b 3\nmain;a;e;f;g 4\nmain;c 5\n|[14]|a 2/9 b 3/3 c 5/5 e 0/4 f 0/4 g 4/4 main 0/14 ",
    "grower_add_of_rows":
        "e 1\nmain;a 9\nmain;a;b 3\nmain;c 5\nmain;d 4\n|[22]|a 9/12 b 3/3 c 5/5 d 4/4 e 1/1 main 0/21 ",
    "grower_with_batch": GROWN,
    "tree_share": PAIRS + "[4, 6]|a 1/1 b 3/3 main 0/4 a 2/2 b 4/4 main 0/6 ",
    "tree_rows": PAIRS,
    "tree_rows_by_names": "a;b 1\na!;x 1\n|",
    "tree_frame_totals": "a 2/5 b 3/3 c 5/5 main 0/10 ",
    "tree_weighted_stacks": "main;a 2\nmain;b 4\n",
    "tree_stack_texts": "main;a 2 main;a;b 3 main;c 5 ",
    "pages_append": "4161 8650721, 4160 8650720",
    "pages_replace": "400 79900, 400 79800",
    "pages_share": "400 79800",
}

REPORTS = {
    "report_of_the_total": "10",
    "report_of_a_focus": "total 2\n2 2 a\n0 2 main\n",
    "report_of_a_top_list": BY_CUM,
    "report_of_a_layout": WORKED_LAYOUT,
    "report_of_a_layout_in_five_columns": FIVE_COLUMNS,
    "report_of_the_greatest_weight": GREATEST_LAYOUT,
    "report_of_folded_text": SORTED,
    "report_of": WORKED_LAYOUT,
    "report_of_stacks": line_layout(2, "main", "a"),
    "report_in_order": WORKED_LAYOUT,
    "report_in_order_of_a_focus": line_layout(2, "main", "a"),
    "report_in_order_of_empty_frames": WORKED_LAYOUT,
    "report_in_order_of_a_top_list": "total 2\n2 2 a\n0 2 main\n",
    "top_list": BY_FLAT,
    "top_list_of_many_names": "total 40\n40 40 g\n0 1 f0\n0 1 f1\n",
    "top_text": BY_FLAT + "0 10 main\n",
    "flame_json": line_layout(1, "main", "a"),
    "flame_json_of_one_column": ONE_COLUMN,
}

ENTRIES = "0.0 add 0, 1.0 add 1, 1.1 add 2, 1.2 add 3, "
BOOK = ENTRIES + "b 2\nmain;a 1\n|[3]|a 1/1 b 2/2 main 0/1 "
ADDED = ENTRIES + "0.1 add 4, b 2\nc;d 8\nmain;a 5\n|[15]|a 5/5 b 2/2 c 0/8 d 8/8 main 0/5 "
RESET = f"placed 4 at 4; {ENTRIES}0.1 reset 4, |[0]|"
HEAVY = (
    f"K4 Heavy value 0 held 9223372036854775806; {ENTRIES}b 2\nmain;a 9223372036854775804\n"
    "|[9223372036854775806]|a 9223372036854775804/9223372036854775804 b 2/2 main 0/9223372036854775804 "
)

BOOKS = {
    "book_new": "||[0, 0]|",
    "book_add": f"placed 4 at 4; {ADDED}",
    "book_add_up_to_the_limits":
        f"placed 0 at 0; 0.0 add 0, a {GREATEST}\n|[{GREATEST}]|a {GREATEST}/{GREATEST} ",
    "book_reset": RESET,
    "book_prepare": f"placed 4 at 4; {ADDED}",
    "book_prepare_reset": RESET,
    "audit": "0.0 1.0 0.1 1.1 ",
    "audit_of_two_reports": "0.0 1.0 0.1 1.1 1.2 ",
    "audit_of_a_wrong_answer": "A5 WrongAnswer session 1 index 1",
    "audit_of_two_logs": "A1 TwoLogs session 0",
    "audit_of_a_stranger": "A2 Stranger session 7 index 0",
}

# The entries of a store before a step.
STORED = "1.0 add 0, 1.1 add 1, 1.2 add 2, 1.3 add 3, "

# Calls of which a named fault comes before running out of memory.
NAMED_FAULTS = {
    "book_add_of_no_session": f"K1 Session; {BOOK}",
    "book_add_of_a_wrong_turn": f"K2 Turn held 1; {BOOK}",
    "book_add_where_it_is_full": f"K3 Full held 4; {BOOK}",
    "book_add_of_a_heavy_batch": HEAVY,
    "book_add_of_another_width": f"K6 Width held 1; {BOOK}",
    "book_reset_of_a_wrong_turn": f"K2 Turn held 1; {BOOK}",
    "book_reset_where_it_is_full": f"K3 Full held 4; {BOOK}",
    "book_prepare_of_a_wrong_turn": f"K2 Turn held 1; {BOOK}",
    "book_prepare_where_it_is_full": f"K3 Full held 4; {BOOK}",
    "book_prepare_of_a_heavy_batch": HEAVY,
    "book_prepare_reset_of_a_wrong_turn": f"K2 Turn held 1; {BOOK}",
    "book_prepare_reset_where_it_is_full": f"K3 Full held 4; {BOOK}",
    "session_ask_by_no_value": f"K6 Width held 1, log next 4, total 3; {STORED}1.4 add 4, 3",
}

ONE_LINE = line_layout(1, "a", "b")

STORES = {
    "blank_make": "2 sessions, 2 values",
    "blank_make_of_no_sessions": "S1 Sessions",
    "store_session": "0 1 N1 AllGiven",
    "session_add": f"place 4, total 13; {STORED}0.0 add 4, 13",
    "session_add_of_one_row": f"place 4, total 5; {STORED}0.0 add 4, 5",
    "session_add_over_pages": f"place 4, total 151; {STORED}0.0 add 4, 151",
    "session_add_where_it_is_full": f"K3 Full held 4, total 1; {STORED}1",
    "session_add_of_a_heavy_batch": f"K4 Heavy value 0 held 1, total 1; {STORED}1",
    "session_add_of_another_width": f"K6 Width held 1, total 1; {STORED}1",
    "session_reset": f"place 4, total 0; {STORED}0.0 reset 4, 0",
    "session_reset_where_it_is_full": f"K3 Full held 4, total 1; {STORED}1",
    "session_take": f"place 4, window a;b 1\n|[1]|a 0/1 b 1/1 , total 0; {STORED}0.0 reset 4, 0",
    "session_take_where_it_is_full": f"K3 Full held 4, total 1; {STORED}1",
    "session_ask": f"1, log ask 1 at 4, next 4, total 3; {STORED}1.4 add 4, 3",
    "session_ask_for_a_layout":
        f"{ONE_LINE}, log ask {ONE_LINE} at 4, next 4, total 3; {STORED}1.4 add 4, 3",
}

WORKERS = {
    "run_workers": "3 2 of 5, total 15",
    "run_workers_for_two_questions": "1 1 of 2, total 0",
    "run_workers_with_too_few_sessions": "G1 Session worker 1 fault N1 AllGiven",
    "live_text": SORTED + "audited 5 operations\n",
    "live_text_of_a_warm_start": SORTED + "audited 8 operations\n",
}

PROGRAMS = {
    "read_input": "main;a;b 3\nmain;a 2\nmain;c 5\n",
    "run_top": BY_FLAT + "0 10 main\n0 ",
    "run_top_by_cum": BY_CUM + "3 3 b\n0 ",
    "run_top_of_a_focus": "total 5\n3 3 b\n2 5 a\n0 5 main\n0 ",
    "run_fold": SORTED + "0 ",
    "run_flame": FOUR_COLUMNS + "\n0 ",
    "run_proto": ONE_SAMPLE,
    "run_top_of_a_profile": "total 30\n30 30 f\n0 ",
    "run_fold_of_a_profile": "f 30\n0 ",
    "run_live": SORTED + "audited 5 operations\n0 ",
    "run_live_of_a_warm_start": SORTED + "audited 8 operations\n0 ",
    "run_live_of_no_rows": "audited 2 operations\n0 ",
    "run_live_of_a_profile": "value 0\nf 3\nvalue 1\nf 30\naudited 5 operations\n0 ",
    "run_with_no_count": "1 flame: F2 NoCount line 2\n",
    "run_with_another_format": "1 flame: P2 Wire W5 WireType\n",
    "run_with_wrong_words":
        "2 error: invalid value 'x' for '--count': a number from 0 to 4294967295\n\n"
        "For more information, try '--help'.\n",
}

# Calls that never ask for a growth.
WITHOUT_GROWTHS = {
    "no_growth_of_bytes": "Ok((300, 2)) (3, 301)",
    "no_growth_of_profiles": "2 types, 6 strings",
    "no_growth_of_rows": "main 3 [1, 2, 3] 3 1 [1, 2] 1",
    "no_growth_of_trees":
        "14 14 2 1 10; main;a 2\nmain;a;b 3\nmain;c 5\nmain;d 4\n|[14]|"
        "a 2/5 b 3/3 c 5/5 d 4/4 main 0/14 ; |[0]|",
    "no_growth_of_books": f"15 4 15 5; {ADDED}; 0 5 6 2 0 1",
    "no_growth_of_comparisons": "[true, false, true, false, true, true, false]",
    "no_growth_of_stores": "2 1 1 add 0 at 0, 1 steps",
}

ANSWERS = {
    **BYTES, **ROWS, **SAMPLES, **TREES, **REPORTS, **BOOKS, **NAMED_FAULTS, **STORES, **WORKERS, **PROGRAMS,
    **WITHOUT_GROWTHS,
}

# The cases that ask for no growth: those, those with a fault that comes first, and a few others on so small a case.
ASK_FOR_NONE = {
    *WITHOUT_GROWTHS, *NAMED_FAULTS, "batch_push_of_a_heavy_row", "blank_make_of_no_sessions", "check_of_a_wrong_index",
    "name_make_of_no_name", "name_share", "pages_share", "report_of_the_total",
}
