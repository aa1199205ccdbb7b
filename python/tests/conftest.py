"""How the tests of laws draw: without a deadline, since the machine may be busy."""

import hypothesis

hypothesis.settings.register_profile("busy", deadline=None, max_examples=50)
hypothesis.settings.load_profile("busy")
