"""The page as PDF, by WeasyPrint. The same page and the same WeasyPrint and fonts give the same bytes."""

import os

from tsav.command.answer import Failure
from tsav.command.messages import _


def content(html: bytes) -> bytes:
    try:
        import weasyprint
    except (ImportError, OSError) as error:
        raise Failure(_("the PDF needs WeasyPrint: apt-get install weasyprint, or pip install weasyprint")) from error
    # Parts of the fonts would have the clock's time in them.
    before = os.environ.get("SOURCE_DATE_EPOCH")
    os.environ["SOURCE_DATE_EPOCH"] = "0"
    try:
        return weasyprint.HTML(string=html.decode("utf-8"), url_fetcher=_nothing).write_pdf()
    finally:
        del os.environ["SOURCE_DATE_EPOCH"]
        if before is not None:
            os.environ["SOURCE_DATE_EPOCH"] = before


def _nothing(url, *_others):
    """The page has all it needs in it."""
    raise ValueError(url)
