"""What these tests want of a call that is not done."""

import pytest

from nvmesgl import Refused


def refused(code, call, *arguments, **named):
    """The refusal of a call, which has this code."""
    with pytest.raises(Refused) as raised:
        call(*arguments, **named)
    assert raised.value.code == code, raised.value
    return raised.value
