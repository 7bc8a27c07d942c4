from setuptools import setup

# license="GPL-2.0"
setup(
    name="seen",
    license="GPL-2.0+",
    url='https://example.org',
)
