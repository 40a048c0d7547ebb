"""The component that LibreOffice loads: it gets the commands `org.flashfill:..` from the menu, the keys and the bar."""
import traceback

import unohelper
from com.sun.star.frame import XDispatch, XDispatchProvider
from com.sun.star.lang import XInitialization, XServiceInfo

from fillbyexample.bar import PROTOCOL
from fillbyexample.commands import Commands

NAME = "org.flashfill.Calc"
SERVICES = ("com.sun.star.frame.ProtocolHandler",)


class Handler(unohelper.Base, XDispatchProvider, XDispatch, XInitialization, XServiceInfo):
    def __init__(self, context, *_):
        self.context, self.frame = context, None

    def initialize(self, words):
        if words:
            self.frame = words[0]

    def queryDispatch(self, url, _target, _flags):
        return self if url.Complete.startswith(PROTOCOL) else None

    def queryDispatches(self, requests):
        return tuple(self.queryDispatch(it.FeatureURL, it.FrameName, it.SearchFlags) for it in requests)

    def dispatch(self, url, options):
        name, _, place = url.Complete[len(PROTOCOL):].partition("#")
        commands = Commands(self.context, self.frame)
        try:
            commands.run(name, {it.Name: it.Value for it in options}, bool(place))
        except Exception as why:  # an error of this extension: a person should see it, and LibreOffice go on
            traceback.print_exc()
            commands.telling.refuse("stopped", f"{type(why).__name__}: {why}".partition("\n")[0])

    def addStatusListener(self, _listener, _url):
        pass

    def removeStatusListener(self, _listener, _url):
        pass

    def getImplementationName(self):
        return NAME

    def supportsService(self, name):
        return name in SERVICES

    def getSupportedServiceNames(self):
        return SERVICES


g_ImplementationHelper = unohelper.ImplementationHelper()
g_ImplementationHelper.addImplementation(Handler, NAME, SERVICES)
