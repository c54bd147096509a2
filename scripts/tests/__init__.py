"""The suites of tests (test_NAME.py), which scripts/test runs, and what they alone use."""
