"""The page on screens of all widths, light and dark, by keys and by touch."""
import pytest

from viewing import answered, browser, counting, needs_browser, page, shown, towns_folder  # noqa: F401


@pytest.mark.slow
@needs_browser
def test_by_keys(page):
    """All of it, and letting go and taking back."""
    page.value("plane.focus()")
    page.key("0")
    before = page.value("frame")
    page.key("+")
    page.key("ArrowRight")
    page.wait(f"frame[0] > {before[0]}")
    page.key("0")
    assert page.value("frame") == before
    page.key("b")
    page.key("Enter")
    for _ in range(9):
        page.key("ArrowRight")
        page.key("ArrowDown")
    page.key("Enter")
    found = answered(page, "box")
    assert found["count"] > 0 and page.value("mode()") == "box"
    page.key("p")
    for steps in (["ArrowLeft"] * 6, ["ArrowUp"] * 9, ["ArrowRight"] * 12):
        for step in steps:
            page.key(step)
        page.key("Enter")
    assert page.value("state.ring.length") == 3 and page.value("state.answer") is None
    page.key("u")
    assert page.value("state.ring.length") == 2
    page.key("Escape")
    assert page.value("state.ring.length") == 0 and page.value("state.answer.count") == found["count"]
    page.key("Escape")
    assert page.value("state.answer") is None and page.value("state.query") is None
    page.key("u")
    assert page.value("state.answer.count") == found["count"]
    page.key("n")
    page.key("Enter")
    assert len(answered(page, "nearest")["near"]) == 10
    names = page.value("""[...document.querySelectorAll('button, input, select, canvas')].filter(e => e.offsetParent)
        .filter(e => !(e.getAttribute('aria-label') || e.textContent.trim() || e.labels && e.labels.length)).length""")
    roles = page.value("document.querySelectorAll('[role=status], [role=alert], [role=toolbar]').length")
    assert names == 0 and roles >= 5


@pytest.mark.slow
@needs_browser
def test_by_touch(page):
    """One finger draws and moves, two zoom."""
    page.size(390, 844, is_phone=True)
    page.wait("plane.clientWidth === 390")
    top = page.value("plane.getBoundingClientRect().top")
    page.value("choose('box')")
    page.touch([(100, top + 60)], [(180, top + 130)], [(320, top + 300)])
    assert answered(page, "box")["count"] > 0
    page.value("choose('nearest')")
    page.touch([(200, top + 200)])
    assert len(answered(page, "nearest")["near"]) == 10
    page.value("choose('move')")
    before = page.value("frame")
    page.touch(*([(200 - far, top + 200), (200 + far, top + 200)] for far in (20, 50, 100)))
    after = page.value("frame")
    assert (after[2] - after[0]) * 3 < before[2] - before[0]


@pytest.mark.slow
@needs_browser
@pytest.mark.parametrize("width, height", [(320, 640), (390, 844), (768, 1024), (1280, 800), (2560, 1440)])
def test_widths(page, width, height):
    """Nothing is wider than the screen, the plane has most of it, and both schemes have their contrast."""
    page.size(width, height, width < 800)
    page.wait(f"innerWidth === {width}")
    assert page.value("document.documentElement.scrollWidth") <= width
    assert page.value("plane.clientWidth") >= (width if width < 800 else width * .6)
    assert page.value("plane.clientHeight") >= 240
    seen = "[...document.querySelectorAll('button, #modes span')].filter(e => e.offsetParent)"
    assert page.value(f"{seen}.filter(e => e.offsetHeight < 32).length") == 0
    for scheme in ("light", "dark"):
        page.scheme(scheme)
        for ink, ground in (("text", "ground"), ("soft", "panel"), ("soft", "ground"), ("wrong", "panel"),
                            ("pressed", "press")):
            assert page.value(CONTRAST % (ink, ground)) >= 4.5, (scheme, ink, ground)


CONTRAST = """(() => {
  const style = getComputedStyle(document.documentElement);
  const light = name => {
    const parts = style.getPropertyValue('--' + name).trim().match(/[0-9a-f]{2}/g).map(part => parseInt(part, 16) / 255)
      .map(c => c <= .04045 ? c / 12.92 : ((c + .055) / 1.055) ** 2.4);
    return .2126 * parts[0] + .7152 * parts[1] + .0722 * parts[2];
  };
  const [a, b] = [light('%s'), light('%s')];
  return (Math.max(a, b) + .05) / (Math.min(a, b) + .05);
})()"""
