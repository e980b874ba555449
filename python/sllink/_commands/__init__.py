"""What the tools do, a module each, whose text is their help. ../_start.py begins them."""
