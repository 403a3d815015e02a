"""Tests of what people touch, over what was built. `make test-around` runs them in small sizes, side by side."""
