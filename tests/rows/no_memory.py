"""Each public call that may answer NoMemory, with a row that a body would fail that always does: the row wants another answer.

Rows of a table have the driver's word for the call; the others are tests, each a file of the repository and the line that begins it.
"""

from pathlib import Path

REPOSITORY = Path(__file__).resolve().parents[2]

BY_ROWS = {
    "Reader::feed": ("resp_wire", "a_fault_is_answered_from_then_on", "reader feed"),
    "Reader::feed_from": ("session_order", "mset_then_mget_as_bytes", "session feed"),
    "Reader::next": ("resp_wire", "signs_and_leading_zeros_are_read", "reader next"),
    "write_value": ("resp_wire", "what_is_written_is_canonical", "value write"),
    "NodeTable::intern": ("slot_map", "a_full_table", "table intern"),
    "NodeTable::intern_beside": ("slot_map", "a_held_endpoint_keeps_its_number", "table beside"),
    "SlotMap::new": ("slot_map", "the_last_change_counts", "map new"),
    "SlotMap::copy": ("slot_map", "a_copy_is_its_own", "map copy"),
    "ops_of": ("slot_map", "servers_with_hosts", "map read"),
    "slots_value": ("node_model", "slots_before_and_after_a_move", "cluster slots"),
    "plan": ("key_split", "mset_then_mget_with_a_repeat", "plan of"),
    "words_of": ("key_split", "node_words_of_a_repeated_option", "plan of"),
    "join": ("key_split", "sums_of_small_integers", "plan join"),
    "refusal": ("key_split", "texts_of_refused_requests", "plan refusal"),
    "told_value": ("key_split", "what_a_node_writes", "told value"),
    "told_of": ("node_link", "redirect_lines", "told by"),
    "Command::batch": ("command_future", "wants_one_by_one", "command batch"),
    "Link::send": ("node_link", "asking_batch_then_slots", "link send"),
    "Link::ask_slots": ("node_link", "slots_given_by_a_link", "link slots"),
    "Link::receive": ("node_link", "asking_batch_then_slots", "link receive"),
    "BlockPort::send": ("node_link", "one_byte_at_a_time_to_a_port", "port send"),
    "BlockPort::ask_slots": ("node_link", "one_byte_at_a_time_to_a_port", "port slots"),
    "BlockPort::next": ("node_link", "the_first_value_is_of_asking", "port next"),
    "Store::apply": ("node_model", "one_key_through_every_operation", "store apply"),
    "Cluster::new": ("node_model", "a_key_moves", "cluster new"),
    "Cluster::serve": ("node_model", "a_key_moves", "cluster serve"),
    "Cluster::import_slot": ("node_model", "a_key_moves", "cluster import"),
    "Cluster::migrate_slot": ("node_model", "a_key_moves", "cluster migrate"),
    "Cluster::move_key": ("node_model", "a_key_moves", "cluster movekey"),
    "Cluster::own_slot": ("node_model", "a_key_moves", "cluster own"),
    "Cluster::release_slot": ("node_model", "a_key_moves", "cluster release"),
    "Cluster::forget_slot": ("node_model", "a_move_is_called_back", "cluster forget"),
    "Cluster::stay_slot": ("node_model", "a_move_is_called_back", "cluster stay"),
    "Session::feed": ("session_order", "mset_then_mget_as_bytes", "session feed"),
    "Session::read": ("session_order", "mset_then_mget_as_bytes", "session read"),
    "Session::drain": ("session_order", "replies_keep_the_order_of_the_requests", "session drain"),
    "World::new": ("cluster_world", "a_pair_behind_another_workers_command", "world new"),
    "World::apply": ("cluster_world", "a_pair_behind_another_workers_command", "world do"),
    "audit": ("cluster_world", "answered_has_one_entry", "report audit"),
    "LocalState's calls": ("local_state", "an_ask_is_followed_once", "state serve"),
    "lanes, CarrierEnds::publish": ("proxy_lanes", "a_view_shows_what_was_published", "lanes publish"),
    "Engine::new": ("engine", "the_first_post_is_moved", "engine begin"),
    "Carrier::turn": ("engine", "a_reply_is_given", "engine turn"),
    "Worker::turn": ("engine", "the_first_post_is_moved", "engine turn"),
    "Engine::turn": ("engine", "a_client_that_is_gone_drops_what_was_not_posted", "engine turn"),
    "Play::new": ("plays", "a_key_moves_in_a_play", "play begin"),
    "Play::play": ("plays", "a_key_moves_in_a_play", "play do"),
}

BY_TESTS = {
    "World::run; run_simulate": ("tests/program/simulate_scripts.txt", "# another_workers_batch_between_ask_and_its_pair 0"),
    "LocalCluster::new, run_local; run_scripts": ("tests/program/test_local.py", "def test_two_clients("),
    "run_faulty": ("crates/layer_tests/src/local_runs.rt", "fn connections_that_fail_after_twelve_calls("),
    "run_wire": ("tests/program/test_serve.py", "def test_set_then_get_with_two_workers("),
    "run_nodes": ("tests/program/test_nodes.py", "def test_a_node_sends_to_the_owner_and_takes_one_key("),
    "write_bulk_head": ("tests/real/cases_commands.py", "def big_values(world"),
    "run_one": ("tests/program/test_one.py", "def test_answers_of_an_empty_store("),
}


def failures_of_always(tables):
    """A line for each call whose row is not there, or does not make it and want another answer. Prints how many are there."""
    rows = {(path.stem, row.name): row for path, rows in tables for row in rows}
    lines = []
    for call, (table, name, words) in BY_ROWS.items():
        row = rows.get((table, name))
        if not row or not any(f"{it} ".startswith(f"{words} ") and wanted != "NoMemory" for it, wanted in zip(row.calls, row.wanted)):
            lines.append(f"{call}: no row {name} of {table} makes the call `{words}` with memory")
    for call, (path, line) in BY_TESTS.items():
        if not any(it.strip().startswith(line) for it in (REPOSITORY / path).read_text(encoding="utf-8").splitlines()):
            lines.append(f"{call}: {path} has no line `{line}`")
    print(f"{len(BY_ROWS) + len(BY_TESTS) - len(lines)} calls have a row that a body would fail that always answers NoMemory")
    return lines
