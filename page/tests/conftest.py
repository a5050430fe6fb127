def pytest_addoption(parser):
    """--page is needed."""
    parser.addoption("--page", metavar="FOLDER", help="the folder with the page that tools/page made")
    parser.addoption("--short", action="store_true", help="draws smaller pictures")
    parser.addoption("--pictures", action="store_true", help="makes the stored pictures anew")
    parser.addoption("--figures", action="store_true", help="prints the figures of page/README.md")
    parser.addoption("--screenshot", action="store_true", help="makes docs/pictures/page.png anew")
