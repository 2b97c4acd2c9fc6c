"""What wathread-link and compile.py have in common: how something is refused, and how a file is written."""
import os
import stat
import tempfile


class Refused(Exception):
    pass


def write(path, data):
    """Writes a file that is there whole or not at all; what is no file, as a pipe, takes it as it comes."""
    if os.path.exists(path) and not stat.S_ISREG(os.stat(path).st_mode):
        with open(path, 'wb') as file:
            file.write(data)
        return
    path = os.path.realpath(path)
    if os.path.exists(path):
        open(path, 'ab').close()                        # may it be written?
    made, beside = tempfile.mkstemp(dir=os.path.dirname(path), prefix='.wathread-')
    try:
        with os.fdopen(made, 'wb') as file:
            file.write(data)
        mask = os.umask(0)
        os.umask(mask)
        os.chmod(beside, 0o666 & ~mask)
        os.replace(beside, path)
    except BaseException:
        os.unlink(beside)
        raise
