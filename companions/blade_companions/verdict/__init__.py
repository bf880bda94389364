"""Why a verdict is no, and how it is printed: flow, causes, diagnostics, text, SARIF and the page. Licence:
public domain (CC0)."""
