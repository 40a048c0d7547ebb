"""The words of the extension, one module a language; each has the same names as `en`."""
from . import de, en

LANGUAGES = {"en": en, "de": de}
STYLES = tuple(it.STYLE for it in LANGUAGES.values())
TITLES = {title for it in LANGUAGES.values() for title in (it.FILL, it.RUN_RULE)}


def of_office(context):
    """The words in the language of the office, else in English."""
    from com.sun.star.beans import PropertyValue

    provider = context.ServiceManager.createInstanceWithContext("com.sun.star.configuration.ConfigurationProvider", context)
    path = PropertyValue()
    path.Name, path.Value = "nodepath", "/org.openoffice.Setup/L10N"
    access = provider.createInstanceWithArguments("com.sun.star.configuration.ConfigurationAccess", (path,))
    return LANGUAGES.get(str(access.ooLocale).partition("-")[0], en)
