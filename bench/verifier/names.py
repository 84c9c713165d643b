"""Names of XML (Extensible Markup Language 1.0, Fifth Edition, 2.3), without colons, as regular expressions."""

START = (
    "A-Z_a-z\u00c0-\u00d6\u00d8-\u00f6\u00f8-\u02ff\u0370-\u037d\u037f-\u1fff\u200c\u200d\u2070-\u218f\u2c00-\u2fef"
    "\u3001-\ud7ff\uf900-\ufdcf\ufdf0-\ufffd\U00010000-\U000effff"
)
NAME = f"[{START}][{START}0-9.\u00b7\u0300-\u036f\u203f\u2040\\-]*"
# a name with a prefix or without one, or `*` behind a prefix
PREFIXED = f"{NAME}(?::(?!:)(?:{NAME}|\\*))?"
