"""The dialogs: which columns are read, and which file has a rule. An option of the command stands for what a person chooses."""
import unohelper

from .columns import nearest
from .learning import MOST_READ

WIDTH, BOX, MARGIN, LINE = 190, 120, 6, 12  # in units of a dialog
MOST_BELOW = 12  # check boxes
OK, CANCEL = 1, 2  # com.sun.star.awt.PushButtonType
PLACE = 3  # com.sun.star.awt.PosSize: X and Y
OPEN, SAVE = 0, 10  # com.sun.star.ui.dialogs.TemplateDescription: FILEOPEN_SIMPLE, FILESAVE_AUTOEXTENSION
MOST_LISTED = 36
LONGEST_NAME = 40


def letters_of(column):
    """The letters of a column, which is counted from 0."""
    letters = ""
    while column >= 0:
        letters, column = chr(ord("A") + column % 26) + letters, column // 26 - 1
    return letters


def choose_columns(context, frame, words, task, read, options):
    """The columns to read, counted from 0 in the region; None where a person gives up. The option `Columns` has their letters,
    with commas between them."""
    region = task.region
    listed = sorted(nearest(region)[:MOST_LISTED])
    letters = {letters_of(region.left + it): it for it in listed}
    if "Columns" in options:
        wanted = [it.strip().upper() for it in options["Columns"].split(",")]
        return sorted(letters[it] for it in wanted if it in letters)[:MOST_READ]
    items = []
    for letter, column in letters.items():
        texts = region.texts(column)
        name = texts[0] if task.column.header else next((it for it in texts if it), "")
        items.append(words.COLUMN.format(letter, " ".join(name.split())[:LONGEST_NAME]))
    chosen = _choose(context, frame, words, items, [listed.index(it) for it in read])
    return None if chosen is None else sorted(listed[it] for it in chosen)[:MOST_READ]


def _choose(context, frame, words, items, selected):
    """The places of the items that a person chooses by check boxes."""
    model = context.ServiceManager.createInstanceWithContext("com.sun.star.awt.UnoControlDialogModel", context)
    width = max(WIDTH, -(-len(items) // MOST_BELOW) * BOX + MARGIN)
    top = 3 * MARGIN + (1 + min(len(items), MOST_BELOW)) * LINE
    model.Title, model.Width, model.Height = words.COLUMNS_TITLE, width, top + LINE + MARGIN + 3
    _add(model, "FixedText", "label", MARGIN, MARGIN, width - 2 * MARGIN, LINE, Label=words.COLUMNS_LABEL)
    for at, item in enumerate(items):
        right, down = divmod(at, MOST_BELOW)
        _add(model, "CheckBox", f"box{at}", MARGIN + right * BOX, 2 * MARGIN + (1 + down) * LINE, BOX - MARGIN, LINE, Label=item.replace("~", "~~"), State=int(at in selected))
    _add(model, "Button", "ok", width - 2 * (50 + MARGIN), top, 50, LINE + 3, Label=words.OK, PushButtonType=OK, DefaultButton=True)
    _add(model, "Button", "cancel", width - 50 - MARGIN, top, 50, LINE + 3, Label=words.CANCEL, PushButtonType=CANCEL)
    dialog = context.ServiceManager.createInstanceWithContext("com.sun.star.awt.UnoControlDialog", context)
    dialog.setModel(model)
    window = frame.getContainerWindow()
    dialog.createPeer(window.getToolkit(), window)
    size, around = dialog.getPosSize(), window.getPosSize()
    dialog.setPosSize(max(0, around.Width - size.Width) // 2, max(0, around.Height - size.Height) // 2, 0, 0, PLACE)
    dialog.getControl("box0").setFocus()
    try:
        return [at for at in range(len(items)) if dialog.getControl(f"box{at}").State] if dialog.execute() else None
    finally:
        dialog.dispose()


def _add(model, kind, name, left, top, width, height, **properties):
    control = model.createInstance(f"com.sun.star.awt.UnoControl{kind}Model")
    control.PositionX, control.PositionY, control.Width, control.Height, control.TabIndex = left, top, width, height, len(model.getElementNames())
    for it, value in properties.items():
        setattr(control, it, value)
    model.insertByName(name, control)


def choose_file(context, words, options, is_saved, proposed=""):
    """The path of a rule's file; None where a person gives up. The option `URL` has the file's address."""
    if "URL" in options:
        return unohelper.fileUrlToSystemPath(options["URL"])
    picker = context.ServiceManager.createInstanceWithContext("com.sun.star.ui.dialogs.FilePicker", context)
    picker.initialize((SAVE if is_saved else OPEN,))
    picker.appendFilter(words.RULE_FILES, "*.rule")
    picker.setCurrentFilter(words.RULE_FILES)
    if is_saved:
        picker.setDefaultName(proposed)
    if not picker.execute():
        return None
    return unohelper.fileUrlToSystemPath(picker.getSelectedFiles()[0])
