"""The version of the project, by semantic versioning: of its formats, statuses, and interfaces for Python and C.

The number stands here alone. What repeats it is compared with it by tests/test_version.py.
"""
VERSION = "1.0.0"
