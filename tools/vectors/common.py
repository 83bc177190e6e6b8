"""What the makers share: the requests that have landed, the model's cases of seed 7, the forms' names, bytes and text
as the programs read and print them."""
import contextlib
import io
import pathlib
import tempfile

import cases
import gii

LANDED = gii.Rules(requests={1, 2, 5, 7})  # the requests that have landed: all answers are judged with just these
# Which of the model's cases are taken, by the request that they were made for, 0 being the base. The second group comes
# later, so that stored cases keep their place. For request 1 the model has cards alone, and all of its cards are taken.
EARLIER, FIRST_ROOT = ('0', '2', '7'), ('5',)
FORMS = {'plain': 'plain', 'ahead': 'lookahead', 'scaled': 'scaled'}     # the model's names of the forms, and ours
LOOKAHEAD_HELD = ('gamma_S', 'delta_S', 'theta_S', 'g1', 'g2', 'h1', 'h2')
SCALED_HELD = ('g', 'rho', 'xi', 'rho_S', 'xi_S')
HELD = {'plain': (), 'ahead': LOOKAHEAD_HELD, 'scaled': SCALED_HELD}


@contextlib.contextmanager
def stored(*kinds):
    """A folder with the model's cases of these kinds."""
    with tempfile.TemporaryDirectory() as folder:
        with contextlib.redirect_stdout(io.StringIO()):
            cases.make(7, folder, kinds, LANDED)
        yield pathlib.Path(folder)


def rows(path):
    """The cases of a file, each a list of fields."""
    return [line.split(' | ') for line in path.read_text().splitlines() if not line.startswith('#')]


def numbers(text):
    return [] if text == '-' else [int(x) for x in text.split()]


def number(n):
    """A number of two bytes, the high byte first."""
    return n.to_bytes(2, 'big')


def sized(data):
    """Bytes after their number."""
    return number(len(data)) + bytes(data)


def spaced(values):
    return ''.join(' %d' % x for x in values)


def trimmed(polynomial):
    """The coefficients up to the last that is not zero, at least one."""
    last = max([i for i, x in enumerate(polynomial) if x], default=0)
    return list(polynomial[:last + 1])


def text(lines):
    return ''.join(line + '\n' for line in lines).encode()
