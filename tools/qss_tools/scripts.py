"""The tools by their names: each tool is the function `main` of a module."""
import importlib
import importlib.util
from typing import Dict

# The package for all, and the one for those who work on qss. The second one is not installed.
PACKAGES = ("qss_tools", "qss_dev")

SCRIPTS: Dict[str, str] = {
    "qss-accuracy": "qss_tools.tables.accuracy",
    "qss-advise": "qss_tools.advice.advise",
    "qss-certificate": "qss_tools.certificates.certificate",
    "qss-explain": "qss_tools.advice.explain",
    "qss-fit": "qss_tools.fits.fit",
    "qss-live": "qss_tools.live.live",
    "qss-lsp": "qss_tools.editor.server",
    "qss-measure": "qss_tools.tables.measure",
    "qss-plot": "qss_tools.plot.plot",
    "qss-run": "qss_tools.runs.run_model",
    "qss-sweep": "qss_tools.sweeps.sweep",
    "qss-table": "qss_tools.tables.table",
    "qss-tools": "qss_tools.overview",
    "rows-to-trace": "qss_tools.certificates.rows_to_trace",
    "solution-to-trace": "qss_tools.certificates.solution_to_trace",
}


def scripts_of(package: str) -> Dict[str, str]:
    """The module of each tool of a package, or nothing where the package is not here."""
    if importlib.util.find_spec(package) is None:
        return {}
    found: Dict[str, str] = importlib.import_module(f"{package}.scripts").SCRIPTS
    return found


def modules() -> Dict[str, str]:
    """The module of each tool that is here."""
    return {name: module for package in PACKAGES for name, module in scripts_of(package).items()}
