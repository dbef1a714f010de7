"""What proofs take, in minutes of one core, as it was measured beside other work."""

# The proof of a crate, and of its tests with their run.
PROOFS: dict[str, tuple[float, float]] = {
    'tt_streams': (0.8, 0), 'tt_log': (3.2, 0), 'tt_pages': (7.4, 0), 'tt_values': (6.3, 0),
    'tt_versions': (5.3, 0), 'tt_parts': (3.2, 0), 'tt_repair_laws': (0.7, 0),
    'tt_causes': (0.6, 0), 'tt_generations': (8.3, 0), 'tt_db': (4.8, 0), 'tt_records': (1.7, 0),
    'tt_store': (7.5, 0),
    'tt_json': (2.2, 0), 'tt_grammar': (6.9, 0), 'tt_document': (2.5, 0), 'tt_repair': (1.3, 0),
    'tt_workload': (5.0, 0), 'tt_answers': (2.5, 0), 'tt_requests': (2.5, 0),
    'tt_commands': (5.0, 0), 'tt_session': (3.0, 0), 'tt_lines': (2.0, 0), 'tt_durable': (3.0, 0),
    'tt_workers': (8.6, 0), 'tt_cli': (6.1, 0),
    'tt_base_tests': (0.1, 7.8), 'tt_db_tests': (0.1, 9.8), 'tt_memory_tests': (0.1, 6.9),
    'tt_store_tests': (0.1, 15.1), 'tt_repair_tests': (0.1, 6.3), 'tt_workload_tests': (0.2, 6.1),
    'tt_session_tests': (0.1, 5.5), 'tt_log_tests': (0.1, 3.5), 'tt_workers_tests': (0.1, 8.2),
    'tt_program_memory_tests': (0.1, 13.5), 'tt_service_example': (6.5, 0), 'tt_db_bench': (1.8, 0),
    'tt_store_bench': (5.3, 0),
}
NOT_MEASURED = 3.0  # what is taken for the proof of a crate that wasn't measured

# One wrong body of a crate.
WRONG_BODY: dict[str, float] = {
    'tt_pages': 0.4, 'tt_values': 0.2, 'tt_versions': 0.6, 'tt_parts': 0.4, 'tt_generations': 0.6,
    'tt_db': 0.7, 'tt_store': 1.1, 'tt_document': 1.2, 'tt_repair': 0.7, 'tt_workload': 1.1,
    'tt_workers': 0.8, 'tt_cli': 0.5,
}
WRONG_BODY_NOT_MEASURED = 0.7  # of another crate
