"""What each page of a desk shows and does. No page needs a script; each works by keyboard alone."""
from __future__ import annotations

import hashlib
import secrets
from datetime import timedelta
from pathlib import Path
from urllib.parse import unquote

import flask
from werkzeug.exceptions import HTTPException
from werkzeug.wrappers import Response

from aw_forms.lines import RuleLine
from aw_forms.program import Sorry

from .book import NotSaid
from .fields import Field, fields_of
from .lists import A_PAGE, ORDERS, cuts, ordered, wanted
from .pages import OF_A_FORM, Answer, Pages, behind, here
from .records import UNSURE
from .tasks import Task
from .values import LARGEST
from .wording import human, moment, titled

LONGEST_BODY, HOURS_OF_SESSION = 1 << 18, 12
SIGNED_OUT = "You were signed out, and nothing was sent. Sign in, and the form comes back with what you entered."
POLICY = "default-src 'none'; style-src 'self'; img-src data:; form-action 'self'; frame-ancestors 'none'; base-uri 'none'"


def application(pages: Pages, secret: bytes) -> flask.Flask:
    """The pages as an application of WSGI."""
    app = flask.Flask("aw_desk", template_folder=str(pages.templates), static_folder=None)
    app.config.update(SECRET_KEY=secret, MAX_CONTENT_LENGTH=LONGEST_BODY, MAX_FORM_MEMORY_SIZE=LONGEST_BODY, SESSION_COOKIE_HTTPONLY=True, SESSION_COOKIE_SAMESITE="Strict",
                      SESSION_COOKIE_NAME=cookie_of(secret), PERMANENT_SESSION_LIFETIME=timedelta(hours=HOURS_OF_SESSION))
    app.jinja_env.trim_blocks = app.jinja_env.lstrip_blocks = True
    app.jinja_env.globals.update(human=human, titled=titled)
    guards(app, pages)
    reading(app, pages)
    deciding(app, pages)
    return app


def cookie_of(secret: bytes) -> str:
    """The name of a desk's cookie. A browser has one store of cookies for all ports of a machine, so each desk has a name of its own."""
    return "aw_desk_" + hashlib.sha256(secret).hexdigest()[:12]


def guards(app: flask.Flask, pages: Pages) -> None:
    """What holds of every page: who may see it, forged forms, headers, and sentences for errors."""
    @app.before_request
    def let_in() -> Answer | None:
        if pages.is_strange():
            return pages.render("trouble.html", 403, title="This desk has another name", words="Ask for it at http://127.0.0.1 and its port. Nothing was changed.")
        if flask.request.endpoint in ("style", "login", None):
            return None
        if not pages.clerk():
            return flask.redirect(flask.url_for("login", then=here() if flask.request.method == "GET" else pages.keep() or "/"), 303)
        if flask.request.method == "POST" and pages.is_forged():
            return pages.render("trouble.html", 403, title="This form is too old", words="It was made before you signed in, or by another page. Nothing was sent; open the task again.", again=pages.keep())
        named = flask.request.view_args or {}
        return pages.elsewhere(str(named.get("name") or named.get("case") or "")) if flask.request.method == "GET" else None

    @app.after_request
    def headers(answer: Response) -> Response:
        answer.headers.update({"Content-Security-Policy": POLICY, "X-Content-Type-Options": "nosniff", "Referrer-Policy": "no-referrer", "Cache-Control": "no-store"})
        return answer

    @app.errorhandler(NotSaid)
    def not_said(error: NotSaid) -> Answer:
        app.logger.error("%s", error)
        return pages.render("trouble.html", 503, title="The journal can't be read now", words="Nothing was changed. Try again in a moment; if it stays so, tell whoever runs the office.", again=pages.keep())

    @app.errorhandler(HTTPException)
    def told(error: HTTPException) -> Answer:
        words = {404: "There is no such page or task here.", 405: "This page takes no form.", 413: "What was sent is too long."}.get(error.code or 500, "This can't be done.")
        return pages.render("trouble.html", error.code or 500, title=words, words="Nothing was changed.")

    @app.errorhandler(Exception)
    def failed(error: Exception) -> Answer:
        app.logger.error("%s failed: %s: %s", flask.request.path, type(error).__name__, error)
        return pages.render("trouble.html", 500, title="The desk failed at this", words="It is told to whoever runs the office. Look at the task again before you repeat what you did.", again=pages.keep())

    @app.get("/style.css")
    def style() -> Response:
        return flask.send_from_directory(pages.templates, "style.css", mimetype="text/css")

    @app.route("/login", methods=["GET", "POST"])
    def login() -> Answer:
        then = flask.request.values.get("then", "/")
        then = then if then.startswith("/") and not then.startswith("//") and "\\" not in then else "/"
        if pages.logins is None:
            return flask.redirect("/", 303)
        if flask.request.method == "GET":
            return pages.render("login.html", then=then, name="", fault=SIGNED_OUT if pages.typed(unquote(then)) else "")
        name = flask.request.form.get("name", "")
        with pages.turn:
            fits = not pages.is_forged() and pages.logins.fits(name, flask.request.form.get("password", ""))
        if not fits:
            return pages.render("login.html", 403, then=then, name=name, fault="This name and password do not fit. Try again.")
        before = pages.token()
        flask.session.clear()
        flask.session["clerk"] = name
        pages.entered.hand_on(before, pages.token())
        return flask.redirect(then, 303)

    @app.post("/logout")
    def logout() -> Answer:
        flask.session.clear()
        return flask.redirect("/login", 303)


def reading(app: flask.Flask, pages: Pages) -> None:
    """The pages that show."""
    desk = pages.desk

    @app.get("/")
    def open_tasks() -> Answer:
        ask = flask.request.args
        tasks = list(desk.open().values())
        words, sort, ready, order = ask.get("words", ""), ask.get("sort", ""), ask.get("ready") == "1", ask.get("order", "old")
        fit = ordered(wanted(tasks, words, sort, ready, desk.wording), order, desk.records.since)
        begins = [*cuts(fit), len(fit)]
        last = len(begins) - 2
        at = min(max(int(ask.get("page", "0")) if ask.get("page", "0").isdecimal() else 0, 0), last)
        sorts = sorted({desk.wording.sort(task.name) for task in tasks} | ({sort} if sort else set()))
        keep = {"words": words, "sort": sort, "ready": "1" if ready else "", "order": order}
        return pages.render("open.html", rows=pages.rows(fit[begins[at]:begins[at + 1]]), fit=len(fit), count=len(tasks), page=at, last=last, sorts=sorts, orders=ORDERS, keep=keep)

    @app.get("/task/<path:name>")
    def task(name: str) -> Answer:
        found = desk.task(name)
        if found is None:
            flask.abort(404)
        if not found.is_open:
            return pages.render("decided.html", 200, **pages.decided(found), others=pages.open_in(found.case))
        claims = desk.records.claims()
        other = claims.get(name, ("", 0.0))
        actions = pages.actions(found)
        return pages.render("task.html", task=found, title=desk.wording.task(name), given=pages.given(found), note=desk.wording.note("sort", desk.wording.sort(name)),
                            can=[action for action in actions if not action.why], cannot=[action for action in actions if action.why], sender=human(desk.wording.sender(name)),
                            own=desk.wording.sender(name) == desk.role, since=moment(desk.records.since(name)), claimed="" if other[0] in ("", pages.clerk()) else other[0],
                            mine=other[0] == pages.clerk(), at=moment(other[1]) if other[0] else "")

    @app.get("/find")
    def find() -> Answer:
        sorts = list(desk.wording.spec.starts)
        sort, digits = flask.request.args.get("sort", sorts[0] if sorts else ""), flask.request.args.get("number", "").strip()
        number = number_of(digits)
        case = "%s#%d" % (sort, number or 0)
        fault = "Enter a whole number for the case, as 120." if digits and number is None else ""
        if number is not None and sort in sorts:
            if not desk.spread.is_here(number) or desk.case(case):
                return flask.redirect(flask.url_for("case", case=case), 303)
            fault = "This office knows nothing of %s." % desk.wording.task(case)
        return pages.render("find.html", 200, sorts=sorts, sort=sort, number=digits, fault=fault)

    @app.get("/case/<case>")
    def case(case: str) -> Answer:
        tasks = list(desk.case(case).values())
        if not tasks:
            flask.abort(404)
        found, then = pages.some(tasks, behind())
        return pages.render("case.html", case=desk.wording.task(case), name=case, tasks=found, then=then, whole=bool(desk.journals.files))

    @app.get("/whole/<case>")
    def whole(case: str) -> Answer:
        if not desk.journals.files or not desk.is_case(case):
            flask.abort(404)
        tasks, why = desk.journals.joined(case)
        if why:
            return apart(case, why)
        found, then = pages.some(tasks, behind())
        return pages.render("whole.html", case=desk.wording.task(case), name=case, tasks=found, then=then)

    @app.get("/apart/<case>")
    def apart(case: str, why: str = "") -> Answer:
        if not desk.journals.files or not desk.is_case(case):
            flask.abort(404)
        tasks, unread = desk.journals.each(case)
        found, then = pages.some(tasks, behind())
        return pages.render("apart.html", case=desk.wording.task(case), name=case, tasks=found, then=then, unread=unread, why=why)

    @app.get("/decided")
    def decided() -> Answer:
        before, words = flask.request.args.get("before", ""), flask.request.args.get("words", "")
        found = desk.records.decisions(A_PAGE, int(before) if before.isdecimal() and len(before) < 19 else None, words)
        rows = [(note, desk.wording.task(note.task), titled(note.rule) if note.rule else "Begun", moment(note.at), pages.noted(note.rule, note.entered),
                 "" if note.answer == "taken" else "It is not known whether this was done." if note.answer == UNSURE else desk.wording.answer(note.answer)) for _, note in found]
        return pages.render("log.html", rows=rows, words=words, before=found[-1][0] if len(found) == A_PAGE else 0)


def deciding(app: flask.Flask, pages: Pages) -> None:
    """The pages that do something. Each answers with another page, so that loading it again sends nothing."""
    desk = pages.desk

    def told(words: str, done: bool) -> None:
        flask.session["said"] = {"words": words, "done": done}

    def rule_at(name: str, rule: str) -> tuple[Task, RuleLine]:
        found = desk.task(name)
        line = desk.rule(found, rule) if found else None
        if found is None or line is None:
            flask.abort(404)
        return found, line

    @app.post("/claim/<path:name>")
    def claim(name: str) -> Answer:
        if desk.task(name) is None:
            flask.abort(404)
        if flask.request.form.get("leave"):
            desk.records.leave(name, pages.clerk())
        else:
            desk.records.claim(name, pages.clerk())
        return flask.redirect(flask.url_for("task", name=name), 303)

    @app.route("/do/<rule>/<path:name>", methods=["GET", "POST"])
    def do(rule: str, name: str) -> Answer:
        task, line = rule_at(name, rule)
        asked, title = flask.request.method == "GET", desk.wording.task(name)
        form = pages.typed(flask.request.path) if asked else flask.request.form
        if not task.is_open or desk.wording.state(task, line):
            told(desk.wording.answer("developed") if not task.is_open else desk.wording.state(task, line), False)
            return flask.redirect(flask.url_for("task", name=name), 303)
        fields = fields_of(desk.wording, line, form, bool(form))
        more = {"task": task, "title": title, "rule": line.name.text, "fields": fields, "note": desk.wording.note("rule", line.name.text)}
        ready = all(field.is_whole for field in fields)
        if asked and fields or not ready or form.get("back"):
            fault = None if asked or form.get("back") else next((found for field in fields if (found := field.first_fault)), None)
            return pages.render("form.html", 422 if fault else 200, **more, fault=fault, given=pages.given(task, OF_A_FORM))
        entered = [field.value() for field in fields]
        if asked or form.get("send") != "1":
            shown = pages.tree(entered, lambda at: line.params[at].text) if entered else ""
            return pages.render("confirm.html", 200, **more, shown=shown, hidden=hidden(fields))
        said = desk.choose(pages.clerk(), task, line, entered)
        told(said.words, said.done)
        pages.entered.forget(pages.token(), flask.request.path)
        again = "" if said.done else pages.keep()
        return flask.redirect(again if said.again else flask.url_for("task", name=name), 303)

    @app.get("/begin")
    def begin() -> Answer:
        sorts = []
        for sort in desk.starts():
            page = "/begin/" + sort
            sorts.append((sort, titled(sort), pages.typed(page).get("number") or pages.next_number(sort), desk.wording.note("sort", sort)))
            pages.entered.forget(pages.token(), page)  # (a number is shown once more, and then the next free one)
        return pages.render("begin.html", sorts=sorts)

    @app.post("/begin/<sort>")
    def begun(sort: str) -> Answer:
        if sort not in desk.starts():
            flask.abort(404)
        number = number_of(flask.request.form.get("number", "").strip())
        if number is None:
            told("Enter a whole number for the case, as 120. Nothing was sent.", False)
            return flask.redirect(pages.keep(), 303)
        said = desk.start(pages.clerk(), sort, number)
        pages.begun(sort, number)
        told(said.words, said.done)
        pages.entered.forget(pages.token(), flask.request.path)
        if said.again:
            pages.keep()
        return flask.redirect(flask.url_for("task", name="%s#%d" % (sort, number)) if said.done else "/begin", 303)


def number_of(digits: str) -> int | None:
    """A number of a case, as it was entered."""
    fits = digits.isascii() and digits.isdigit() and len(digits.lstrip("0")) <= 20
    return int(digits) if fits and int(digits) <= LARGEST else None


def hidden(fields: list[Field]) -> list[tuple[str, str]]:
    """What was entered, for a form that is sent on as it is."""
    found, todo = [], list(fields)
    while todo:
        field = todo.pop(0)
        found.append((field.key, field.entered))
        if field.chosen:
            found.append((field.key + ".is", field.chosen))
        found.append((field.key + ".seen", "1"))
        todo += field.parts
    return found


def secret_of(path: Path) -> bytes:
    """The secret of the sessions, which is made once."""
    try:
        if not path.exists():
            path.touch(0o600)
            path.write_bytes(secrets.token_bytes(32))
        data = path.read_bytes()
    except OSError as error:
        raise Sorry("%s, the secret of the desk's sessions, can't be kept: %s." % (path, error), 73) from None
    if len(data) < 32:
        raise Sorry("%s is no secret of 32 bytes; take the file away, and one is made." % path, 65)
    return data
