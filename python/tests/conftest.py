"""Settings of all tests."""

from hypothesis import settings

# A machine that is busy may take long for one example.
settings.register_profile("tests", deadline=None)
settings.load_profile("tests")
