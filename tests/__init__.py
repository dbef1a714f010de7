"""The tests of the built program and of all that stands beside the crates.

  python3 -m tests [MODULE..]                     runs all parts, or some, and tells how far it is
  python3 -m unittest tests.documents -k intruder runs what has this name in one part

Run it at the repository's root. ./test runs all of it, after its proofs.
"""
from tests.support.loading import loader_of

# The parts in the order in which they run.
MODULES = ['tools', 'documents', 'json_reports', 'repairs_by_model', 'sessions', 'session_limits', 'command_lines',
           'forgetting', 'client', 'serving', 'replicas', 'hostile', 'logs', 'logs_anew', 'logs_at_rest',
           'failing_logs', 'failing_files', 'disks', 'public_calls', 'docs', 'launcher', 'types']

load_tests = loader_of(__name__, MODULES)
