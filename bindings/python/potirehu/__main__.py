"""python -m potirehu: densities of the upper air from plain decimals, as ./density."""

from .density import run

if __name__ == "__main__":
    run("python -m potirehu")
