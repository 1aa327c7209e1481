"""The server of the desk's page: who gets in, and the questions that the page asks. One thread asks the service, one
question after another, and a second one reads its journal, which may take long."""
import asyncio
import contextlib
from concurrent.futures import ThreadPoolExecutor
from pathlib import Path

from aiohttp import web

import background
import maps
from altctl import Ended, Refusal, Store
from designs import Designs
from edits import CHANGED, carry_out
from features import Late
from figures import figures
from finding import read_texts
from maps.history import history
from news import Journal, told
from office import Office
from people import People
from pieces import Pieces

HERE = Path(__file__).resolve().parent
LEAFLET = Path("/usr/share/javascript/leaflet")
PAGES = {
    "/": (HERE / "page" / "desk.html", "text/html"),
    "/service": (HERE / "page" / "service.html", "text/html"),
    **{f"/{it.name}": (it, "text/javascript") for it in sorted((HERE / "page").glob("*.js"))},
    **{f"/{it.name}": (it, "text/css") for it in sorted((HERE / "page").glob("*.css"))},
    "/leaflet.js": (LEAFLET / "leaflet.min.js", "text/javascript"),
    "/leaflet.css": (LEAFLET / "leaflet.css", "text/css"),
}
HEADERS = {
    "Cache-Control": "no-store",
    "Content-Security-Policy": "default-src 'none'; script-src 'self'; style-src 'self'; connect-src 'self'; "
    "img-src 'self' data: blob:; base-uri 'none'; form-action 'none'; frame-ancestors 'none'",
    "Referrer-Policy": "no-referrer",
    "X-Content-Type-Options": "nosniff",
}
LOOK_SECONDS = 0.3  # between two looks at the journal
WAIT_SECONDS = 20  # that a page waits for news
SHORT_SECONDS = 2  # that an answer waits for the journal to tell of its own batch
AHEAD_SECONDS = 5  # that the first map has before texts are read for finding
LONG = 1000  # bytes of an answer that is sent compressed
TRIES = 5  # of a batch, if others change the same design meanwhile
# What refusals mean to those at the desk.
REFUSALS = {
    1: "there is no such design any more",
    2: "a design of this name is there already",
    3: "there is no such checkpoint any more",
    4: "a checkpoint of this name is there already",
    6: "top has no parent",
    7: "there are designs below it: drop these first",
    8: "the parent has changed since the last merge: merge first",
    9: "there are conflicts to settle first",
    10: "the conflicts have changed meanwhile: look at them again",
    12: "there are too many designs and checkpoints: drop some",
    13: "the store is full: it has to grow",
    22: "a name has 1 to 32 letters, digits, _, - and .",
    90: "you may not do that here",
    CHANGED: "others change it all the time: try it again",
}


def state(designs, file, person):
    designs.store.batches()  # It tells if the service is not there any more.
    news = [told(it) for it in designs.news[-5:]]
    its = {"file": file, "planner": person.name or designs.planner, "batch": designs.batch, "epoch": designs.epoch}
    return {**its, "tree": designs.tree(), "news": news, "steps": person.told()}


def feature_of(it):
    return int(it["table"]), int(it["number"])


def window(designs, it):
    off = {int(table) for table in it.get("off", "").split(",") if table}
    return designs.design(it["at"]).window(tuple(map(float, it["box"].split(",", 3))), off)


def found(designs, it):
    table = it.get("table")
    return designs.finder.find(designs, designs.known(it["at"]), it["text"], it.get("field"), table and int(table))


# What the page asks of the designs.
QUESTIONS = {
    "design": lambda designs, it: designs.about(it["at"]),
    "parent": lambda designs, it: designs.parent_changes(it["at"]),
    "conflicts": lambda designs, it: designs.conflicts(it["at"], int(it["first"])),
    "window": window,
    "feature": lambda designs, it: designs.feature(it["at"], feature_of(it), it.get("other")),
    "compared": lambda designs, it: designs.compared(it["at"], it["other"]),
}
# These need the texts of the design's tables.
OF_TEXTS = {
    "find": found,
    "values": lambda designs, it: designs.finder.values(designs, designs.known(it["at"]), int(it["table"])),
}


class Desk:
    def __init__(self, path, door, program, background=None):
        self.path, self.door, self.people, self.background = path, door, People(path), background
        threads = (ThreadPoolExecutor(1) for _ in range(4))
        self.thread, self.journal_thread, self.texts_thread, self.figures_thread = threads
        self.pictures_threads = background and ThreadPoolExecutor(background.threads)
        self.designs, self.journal, self.pieces = None, None, Pieces()
        # Pull and push would be the desk's own user's, and not that of who asks for it.
        self.office = None if door.is_behind else Office(path, program, lambda: self.arrived.set())

    def application(self):
        made = web.Application(middlewares=[self.guard])
        made.router.add_routes([web.get(path, self.page) for path in PAGES])
        made.router.add_routes([web.get(f"/api/{name}", self.query(work)) for name, work in QUESTIONS.items()])
        made.router.add_routes([web.get(f"/api/{name}", self.text_query(work)) for name, work in OF_TEXTS.items()])
        made.router.add_get("/api/choices", self.choices)
        if self.background is not None:
            made.router.add_get("/api/background", self.picture)
        made.router.add_get("/api/state", self.state)
        made.router.add_get("/api/history", self.history)
        made.router.add_get("/api/status", self.status)
        made.router.add_post("/api/batch", self.sent(self.carried_out))
        if self.office is not None:
            made.router.add_post("/api/office", self.sent(self.carried_between))
        made.cleanup_ctx.append(self.following)
        return made

    # --- who gets in --------------------------------------------------------------------------------

    @web.middleware
    async def guard(self, request, handler):
        why = self.door.refusal(request, request.path in PAGES)
        if why is not None:
            answer = web.Response(status=403, text=why)
        else:
            try:
                answer = await handler(request)
            except web.HTTPException as fault:
                answer = web.Response(status=fault.status, text=fault.reason)
        answer.headers.update(HEADERS)
        is_long = isinstance(answer, web.Response) and answer.body and len(answer.body) > LONG
        if is_long and not answer.content_type.startswith("image/"):
            answer.enable_compression()
        return answer

    async def page(self, request):
        file, kind = PAGES[request.path]
        body = file.read_bytes()
        if self.door.is_behind and request.path == "/":
            body = body.replace(b"<html ", b'<html class="behind" ', 1)
        return web.Response(body=body, content_type=kind, charset="utf-8")

    def person(self, request):
        return self.people.person(self.door.name(request))

    # --- questions ------------------------------------------------------------------------------------

    def query(self, work):
        async def answer(request):
            return await self.reply(self.asked(lambda designs: work(designs, request.query)))

        return answer

    async def choices(self, request):
        alt, person = request.query.get("at"), self.person(request)
        return await self.reply(self.asked(lambda designs: person.chosen(alt, designs.design(alt))))

    def text_query(self, work):
        async def found(it):
            await self.catch_up()
            with self.pieces.wanted():
                await self.read_texts(it["at"])
            return await self.asked(lambda designs: work(designs, it))

        async def answer(request):
            return await self.reply(found(request.query))

        return answer

    async def read_texts(self, alt):
        """Reads the texts of a design's tables on a connection of their own: that may take a few seconds, so it stands
        still while somebody asks."""

        def read(missing):
            with Store(f"unix:{self.path}") as store:
                return {source: read_texts(store, source, layer, self.pieces.of) for source, layer in missing.items()}

        async with self.reading:
            for _ in range(TRIES):
                missing = await self.asked(lambda designs: designs.finder.missing(designs, designs.known(alt)))
                if not missing:
                    break
                texts = await asyncio.get_running_loop().run_in_executor(self.texts_thread, read, missing)
                await self.asked(lambda designs: designs.finder.take(texts))

    async def read_ahead(self):
        """Reads the texts before somebody looks for one, if an index says what designs have in common."""
        await asyncio.sleep(AHEAD_SECONDS)
        with contextlib.suppress(OSError, Ended, Refusal, maps.Fault):  # Who asks is told.
            if await self.asked(lambda designs: designs.has_index):
                await self.read_texts("top")

    async def state(self, request):
        """The state, once a batch came after the one that the page knows, or after a while."""
        person = self.person(request)

        async def found():
            known, office = request.query.get("after"), int(request.query.get("office", 0))
            is_known = known is not None and self.designs is not None and self.designs.batch == int(known)
            if is_known and (self.office is None or self.office.version == office):
                self.arrived.clear()
                with contextlib.suppress(asyncio.TimeoutError):
                    await asyncio.wait_for(self.arrived.wait(), WAIT_SECONDS)
            told = await self.asked(lambda designs: state(designs, self.path, person))
            office = self.office and self.office.told()
            return {**told, "office": office, "background": self.background and self.background.name}

        return await self.reply(found())

    async def history(self, request):
        async def found():
            with self.pieces.question():
                events = await self.of_journal(lambda: history(self.journal.store, feature_of(request.query)))
            return [it._asdict() for it in events]

        return await self.reply(found())

    async def status(self, _):
        """The figures of the service, for the page that shows them."""
        return await self.reply(asyncio.get_running_loop().run_in_executor(self.figures_thread, figures, self.path))

    async def picture(self, request):
        """What lies below a window, as a picture."""

        async def found():
            it = request.query
            crs = await self.asked(lambda designs: designs.design(it["at"]).crs)

            def work():
                if request.transport is None or request.transport.is_closing():
                    raise maps.Fault("nobody waits for it any more")
                return background.picture(self.background, crs, it)

            return await asyncio.get_running_loop().run_in_executor(self.pictures_threads, work)

        return await self.reply(found(), lambda it: web.Response(body=it[0], content_type=it[1]))

    def sent(self, work):
        """The answer to what changes something."""

        async def answer(request):
            if request.content_type != "application/json":
                raise web.HTTPUnsupportedMediaType
            try:
                it = await request.json()
            except ValueError:
                raise web.HTTPBadRequest
            # What was begun is done, also where the browser has gone.
            return await self.reply(asyncio.shield(asyncio.ensure_future(work(it, self.person(request)))))

        return answer

    async def carried_out(self, it, person):
        for tries in range(1, TRIES + 1):
            try:
                said = await self.asked(lambda designs: carry_out(designs, it, person))
                break
            except Refusal as refusal:
                if refusal.number != CHANGED or tries == TRIES or not await self.catch_up():
                    raise
        await self.catch_up()
        return {"batch": self.designs and self.designs.batch, "said": said or []}

    async def carried_between(self, it, _person):
        """Pull, push, or a look at HEAD."""
        told = await self.office.carry_out(it["do"], it.get("designs", []))
        await self.catch_up()
        return told

    async def reply(self, work, answer=web.json_response):
        """The answer to a question."""
        try:
            return answer(await work)
        except Late as late:
            return web.json_response({"fault": str(late), "now": late.now}, status=409)
        except (maps.Fault, Refusal) as fault:
            text = (
                str(fault)
                if isinstance(fault, maps.Fault)
                else REFUSALS.get(fault.number, f"the store refused it: {fault}")
            )
            return web.json_response({"fault": text}, status=409)
        except (KeyError, TypeError, ValueError, AttributeError) as fault:
            return web.json_response({"fault": f"not a question of the desk: {fault!r}"}, status=400)
        except (OSError, Ended):
            text = "The service is not there. What was asked of it last may be done or not: look once it is back."
            return web.json_response({"fault": text}, status=503)

    async def asked(self, work):
        with self.pieces.question():
            return await asyncio.get_running_loop().run_in_executor(self.thread, self.ask, work)

    def ask(self, work):
        self.people.hang_up()
        try:
            if self.designs is None:
                designs = Designs(Store(f"unix:{self.path}"))
                designs.refresh()
                self.designs = designs
            return work(self.designs)
        except (OSError, Ended):
            self.designs = None
            self.people.hang_up(True)
            raise

    # --- the journal ------------------------------------------------------------------------------------

    async def of_journal(self, work):
        return await asyncio.get_running_loop().run_in_executor(self.journal_thread, self.ask_journal, work)

    def ask_journal(self, work):
        try:
            if self.journal is None:
                self.journal = Journal(Store(f"unix:{self.path}"))
            return work()
        except (OSError, Ended):
            self.journal = None
            raise

    async def look(self):
        """Tells the designs what others have done since the last look."""
        news = await self.of_journal(lambda: self.journal.look())
        if news:
            await self.asked(lambda designs: designs.take(news))
            self.arrived.set()

    async def catch_up(self):
        """Waits for the batches up to now, but not for long. False if that was too short."""
        try:
            await asyncio.wait_for(asyncio.shield(asyncio.ensure_future(self.look())), SHORT_SECONDS)
            return True
        except asyncio.TimeoutError:
            return False

    async def following(self, _):
        """Follows the journal as long as the server runs."""
        self.arrived, self.reading = asyncio.Event(), asyncio.Lock()  # Of the loop that runs now.

        async def follow():
            while True:
                try:
                    await self.look()
                except (OSError, Ended, Refusal):
                    self.arrived.set()  # The pages that wait ask themselves, and are told.
                await asyncio.sleep(LOOK_SECONDS)

        work = [follow(), self.read_ahead()]
        if self.office is not None:
            work.append(self.office.follow(lambda: self.designs and self.designs.batch))
        tasks = [asyncio.ensure_future(it) for it in work]
        yield
        for task in tasks:
            task.cancel()
        if self.journal is not None:
            self.journal.store.abort()  # Its thread need not wait for a long answer.
        await asyncio.gather(*tasks, return_exceptions=True)
