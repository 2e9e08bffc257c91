"""The tests of the page; web/test runs them."""
