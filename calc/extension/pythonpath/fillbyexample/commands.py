"""The commands of the menu, the keys and the bar's buttons, on one view of a document."""
from . import engine, marks, memory, rules, words
from .dialogs import choose_columns
from .progress import Waiting
from .region import Refused
from .task import Task
from .telling import Telling, asked
from .undoing import follow
from .writing import Numbers, OneStep, write

_busy = set()  # documents on which a command runs


class Commands:
    def __init__(self, context, frame):
        self.context, self.frame, self.controller = context, frame, frame.getController()
        self.doc, self.words = self.controller.getModel(), words.of_office(context)
        self.telling = Telling(self.doc, frame, self.words)
        self.bar = self.telling.bar

    def run(self, name, options, from_bar=False):
        """Runs a command. What goes wrong is told in the bar."""
        calls = {
            "fill": self.fill, "look": lambda: self.fill(look_up=True), "next": self.next, "clear": self.clear,
            "first": lambda: self.take(0), "second": lambda: self.take(1),
            "header": lambda: self.set_header(True), "no_header": lambda: self.set_header(False),
            "columns": lambda: self.choose_columns(options), "save": lambda: rules.save(self, options), "run": lambda: rules.run(self, options),
        }
        uid = self.doc.RuntimeUID
        if uid in _busy:
            return
        _busy.add(uid)
        try:
            self.end_typing()
            if from_bar:
                self.go_to_asked()
            calls[name]()
        except Refused as why:
            self.telling.refuse(why.name, *why.parts)
        except engine.NoEngine as why:
            self.telling.refuse("no_engine", why)
        except engine.Stopped as why:
            self.telling.refuse("stopped", str(why).rpartition("fillcsv: ")[2])
        finally:
            _busy.discard(uid)

    def end_typing(self):
        """Enters what is being typed into a cell, as a click on another cell does. Nothing else moves."""
        helper = self.context.ServiceManager.createInstanceWithContext("com.sun.star.frame.DispatchHelper", self.context)
        helper.executeDispatch(self.frame, ".uno:GoToCurrentCell", "", 0, ())

    def go_to_asked(self):
        """Goes to the column that the bar speaks of, where the selection has left it."""
        place, selected = asked(self.doc, self.bar), self.doc.getCurrentSelection()
        if place and self.doc.Sheets.hasByName(place.sheet):
            at = selected.getRangeAddress() if hasattr(selected, "getRangeAddress") else None
            sheet = self.doc.Sheets.getByName(place.sheet)
            if not at or (at.Sheet, at.StartColumn, at.EndColumn) != (sheet.getRangeAddress().Sheet, place.column, place.column):
                self.controller.select(sheet.getCellByPosition(place.column, place.row))

    def waiting(self):
        return Waiting(self.frame, self.doc, self.words.LEARNING)

    def task(self, look_up=False):
        with self.waiting() as waiting:
            return Task(self.doc, self.controller, waiting, look_up)

    def check_writable(self):
        if self.doc.isReadonly():
            raise Refused("read_only")

    def fill(self, look_up=False):
        """Fills the column of the selection."""
        self.check_writable()
        with self.waiting() as waiting:
            task = Task(self.doc, self.controller, waiting, look_up)
            if not task.given:
                buttons = self.telling.header(task)
                if not buttons:
                    raise Refused("no_example")
                self.telling.refuse("no_example", buttons=buttons)
                return
            task.learn()
            if not task.open_records() and not task.filled.refusals:
                raise Refused("nothing_open")
        follower = follow(self.doc, words.TITLES)
        follower.begin()
        with OneStep(self.doc, self.words.FILL):
            written = self.write(task)
        follower.end()
        self.telling.tell(task, written)

    def write(self, task):
        """Writes and marks what was learned, and remembers it. Returns the texts that stand there, by record."""
        region = task.region
        marks.clear(region, words.STYLES, task.column.notes)
        texts = {record: task.answer(record) for record in task.open_records()}
        numbers = Numbers(self.context, region, [it for it in task.examples() if it - task.header not in task.filled.refusals])
        write(region, texts, numbers)
        doubtful = task.doubtful()
        marks.mark(region, doubtful, self.words)
        notes = {it: self.telling.note(task, it) for it in doubtful if it - task.header in task.filled.doubts}
        task.column.notes = marks.note(region, notes)
        task.remember(texts if numbers.format is None else {it: region.place(it).getString() for it in texts})
        return texts

    def doubt_after(self, task, record):
        """The next record in doubt, from the top again after the last one."""
        doubtful = task.doubtful()
        if not doubtful:
            raise Refused("no_doubt")
        return next((it for it in doubtful if it > record), doubtful[0])

    def ask(self, task, record):
        """Selects a cell in doubt, and shows both its answers."""
        first, doubt = task.explain(record)
        self.controller.select(task.region.place(record))
        self.telling.ask(task, record, first, doubt)

    def next(self):
        """Goes to the next cell in doubt of the column."""
        with self.waiting() as waiting:
            task = Task(self.doc, self.controller, waiting)
            if not task.column.cells:
                raise Refused("never_filled")
            task.learn()
            row = self.doc.getCurrentSelection().getRangeAddress().StartRow
            self.ask(task, self.doubt_after(task, row - task.region.top))

    def take(self, which):
        """Takes one of the answers that the bar shows as right, fills again by it, and goes to the next cell in doubt."""
        place = asked(self.doc, self.bar)
        if not place or not place.answers or which >= len(place.answers):
            return
        self.check_writable()
        cell = place.cell(self.doc)
        if not cell:
            raise Refused("changed")
        text, follower = place.answers[which] or "", follow(self.doc, words.TITLES)
        self.controller.select(cell)
        follower.begin()
        with OneStep(self.doc, self.words.FILL):
            with self.waiting() as waiting:
                task = Task(self.doc, self.controller, waiting)
                record = place.row - task.region.top
                if record not in task.region.open_places():
                    raise Refused("nothing_open")
                write(task.region, {record: text}, Numbers(self.context, task.region, task.examples()))
                task.column.confirm(cell.getString(), memory.beside(task.column, task.region, record))
                memory.keep(self.doc, task.column)
                task = Task(self.doc, self.controller, waiting)
                task.learn()
            written = self.write(task)
        follower.end()
        self.telling.tell(task, written)
        if task.doubtful():
            with self.waiting() as task.waiting:
                self.ask(task, self.doubt_after(task, record))

    def clear(self):
        """Takes the marks off the column, and the bar away."""
        task = self.task()
        with OneStep(self.doc, self.words.CLEAR):
            marks.clear(task.region, words.STYLES, task.column.notes)
        self.bar.hide()

    def set_header(self, header):
        """Takes the first row for a header or for data, and fills again."""
        column = self.task().column
        column.header = header
        memory.keep(self.doc, column)
        self.fill()

    def choose_columns(self, options):
        """Lets a person choose the columns to read, and fills again."""
        with self.waiting() as waiting:
            task = Task(self.doc, self.controller, waiting)
            read = task.usual_columns()
        chosen = choose_columns(self.context, self.frame, self.words, task, read, options)
        if chosen is None:
            return
        task.column.read, task.column.chosen = [it - task.region.to for it in chosen], True
        memory.keep(self.doc, task.column)
        self.fill()
