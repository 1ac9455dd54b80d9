"""The questions that people bring and the faults that the page had, in Chromium and in Firefox."""

import question_rows as rows

from page_setting import InPage
from firefox_reader import FirefoxReader


class QuestionsInChromium(InPage, rows.Questions):
    """The five questions in Chromium."""


class LinksAndViewsInChromium(InPage, rows.FaultsOfLinksAndViews):
    """Faults of links and views in Chromium."""


class FilesInChromium(InPage, rows.FaultsOfFiles):
    """Faults of files in Chromium."""


class AttacksInChromium(InPage, rows.Attacks):
    """Texts from outside in Chromium."""


class QuestionsInFirefox(FirefoxReader, rows.Questions):
    """The five questions in Firefox."""


class LinksAndViewsInFirefox(FirefoxReader, rows.FaultsOfLinksAndViews):
    """Faults of links and views in Firefox."""


class FilesInFirefox(FirefoxReader, rows.FaultsOfFiles):
    """Faults of files in Firefox."""


class AttacksInFirefox(FirefoxReader, rows.Attacks):
    """Texts from outside in Firefox."""
