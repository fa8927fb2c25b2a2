"""What the tools beside `bnc` share: the readers of models, certificates and journals, the rules of a certificate, and the report's page.

It needs Python 3.10 and its standard library alone. It shares nothing with the proved program.
"""
