"""A first night, from a show to the light: `tools/premiere`."""
