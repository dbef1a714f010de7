"""Sessions whose calls on a log fail, or are the last ones: by tests/tear_unsynced.c, a shared object that
stands before the C library."""
import os
from typing import Callable, Optional, Sequence, Union

from tests.support.held_session import Ended
from tests.support.log_files import LogCase, lines_of_file
from tests.support.shared_objects import shared_object

Hold = Callable[..., Ended]
Setting = Union[int, str]
TEARS = int(os.environ.get('LOG_TEARS', 2000))  # in how many ways a log is torn
FOR_GOOD = 1 << 40  # the number of the last call that fails, where all from some call on fail


class CrashCase(LogCase):
    """Tests of calls that fail. They are left out where there is no C compiler."""
    library: str

    @classmethod
    def setUpClass(cls) -> None:
        super().setUpClass()
        cls.library = shared_object('tear_unsynced')

    def with_calls(self, file: str, **settings: Setting) -> dict[str, str]:
        """The variables of a session whose calls on a file go through the shared object, with its settings."""
        return {'LD_PRELOAD': self.library, 'LOG': os.path.realpath(file),
                **{name: str(value) for name, value in settings.items()}}

    def calls_of(self, hold: Hold, lines: Sequence[str], file: Optional[str] = None,
                 **settings: Setting) -> list[str]:
        """The calls of a session on a file, or on a new one, in their order: such as `pwrite log`."""
        file, trace = file or self.new_file(), self.new_file()
        hold(file, lines, self.with_calls(file, TRACE=trace, **settings))
        return lines_of_file(trace)
