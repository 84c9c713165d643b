"""Other programs by their libraries, so that none is started for a text: `xmllint` (libxml2) and `xsltproc` (libxslt)."""
import ctypes
from ctypes import CFUNCTYPE, POINTER, Structure, byref, c_char_p, c_int, c_void_p

XML, XSLT = ctypes.CDLL("libxml2.so.2"), ctypes.CDLL("libxslt.so.1")
NO_NET, HUGE, COMPACT, BIG_LINES = 1 << 11, 1 << 19, 1 << 16, 1 << 22
# what `xmllint` and `xsltproc` read by
LINT = NO_NET | COMPACT | BIG_LINES
TRANSFORM = NO_NET | 2 | 4 | 8 | 1 << 14
WARNING = 1
# a namespace name that is no URI reference, or a relative one, which the standard leaves to the application; a value of `xml:id`
# that is no name, of which a standard of its own speaks
NO_FAULTS = (99, 100, 539)


class Fault(Structure):
    """What the library tells of a fault, up to the file's name and line."""

    _fields_ = [("domain", c_int), ("code", c_int), ("message", c_char_p), ("level", c_int), ("file", c_char_p), ("line", c_int)]


for library, name, result, words in [
    (XML, "xmlReadFile", c_void_p, [c_char_p, c_char_p, c_int]),
    (XML, "xmlFreeDoc", None, [c_void_p]),
    (XML, "xmlParseDTD", c_void_p, [c_char_p, c_char_p]),
    (XML, "xmlFreeDtd", None, [c_void_p]),
    (XML, "xmlNewValidCtxt", c_void_p, []),
    (XML, "xmlFreeValidCtxt", None, [c_void_p]),
    (XML, "xmlValidateDtd", c_int, [c_void_p, c_void_p, c_void_p]),
    (XML, "xmlSetStructuredErrorFunc", None, [c_void_p, c_void_p]),
    (XML, "xmlSetGenericErrorFunc", None, [c_void_p, c_void_p]),
    (XML, "xmlSetExternalEntityLoader", None, [c_void_p]),
    (XSLT, "xsltSetGenericErrorFunc", None, [c_void_p, c_void_p]),
    (XSLT, "xsltParseStylesheetDoc", c_void_p, [c_void_p]),
    (XSLT, "xsltFreeStylesheet", None, [c_void_p]),
    (XSLT, "xsltApplyStylesheet", c_void_p, [c_void_p, c_void_p, c_void_p]),
    (XSLT, "xsltSaveResultToString", c_int, [POINTER(c_void_p), POINTER(c_int), c_void_p, c_void_p]),
]:
    function = getattr(library, name)
    function.restype, function.argtypes = result, words

free = ctypes.CFUNCTYPE(None, c_void_p)(c_void_p.in_dll(XML, "xmlFree").value)

# what was complained of since the last `fresh`, warnings left out of the first
faults, complaints = [], []


@CFUNCTYPE(None, c_void_p, POINTER(Fault))
def told(_, fault):
    fault = fault.contents
    line = b"%s:%d: %s" % (fault.file or b"", fault.line, fault.message or b"")
    complaints.append(line)
    if fault.level > WARNING and fault.code not in NO_FAULTS:
        faults.append(line)


@CFUNCTYPE(None, c_void_p, c_char_p)
def complained(_, form):
    complaints.append(form)


XML.xmlSetStructuredErrorFunc(None, told)
XML.xmlSetGenericErrorFunc(None, complained)
XML.xmlSetExternalEntityLoader(XML.xmlNoNetExternalEntityLoader)
XSLT.xsltSetGenericErrorFunc(None, complained)
c_int.in_dll(XSLT, "xsltMaxDepth").value = 10000


def fresh():
    faults.clear()
    complaints.clear()


def well_formed(name):
    """Whether `xmllint --noout --nonet --huge` reads the document in a file without a fault."""
    fresh()
    document = XML.xmlReadFile(name, None, LINT | HUGE)
    XML.xmlFreeDoc(document)
    return bool(document) and not faults


def valid(name, declarations):
    """What `xmllint --noout --nonet --dtdvalid` says of the document in a file and the declarations in another one: whether it is
    valid, None where it can't be read; and what it complains of."""
    fresh()
    document = XML.xmlReadFile(name, None, LINT)
    dtd = document and XML.xmlParseDTD(None, declarations)
    found = None
    if dtd:
        context = XML.xmlNewValidCtxt()
        found = XML.xmlValidateDtd(context, document, dtd) == 1
        XML.xmlFreeValidCtxt(context)
        XML.xmlFreeDtd(dtd)
    XML.xmlFreeDoc(document)
    return found, b"\n".join(complaints)


def transformed(sheet, document):
    """What `xsltproc --nonet --maxdepth 10000` puts out for the files of a stylesheet and a document, or None where it complains."""
    fresh()
    read = XML.xmlReadFile(sheet, None, TRANSFORM)
    style = read and XSLT.xsltParseStylesheetDoc(read)
    if not style:
        XML.xmlFreeDoc(read)
        return None
    source = XML.xmlReadFile(document, None, TRANSFORM)
    result = source and not complaints and XSLT.xsltApplyStylesheet(style, source, None)
    text = result and saved(result, style)
    XML.xmlFreeDoc(result or None)
    XML.xmlFreeDoc(source)
    XSLT.xsltFreeStylesheet(style)
    return None if complaints else text


def saved(result, style):
    """The bytes of a result."""
    begin, size = c_void_p(), c_int()
    if XSLT.xsltSaveResultToString(byref(begin), byref(size), result, style) != 0:
        return None
    text = ctypes.string_at(begin.value, size.value) if begin.value else b""
    if begin.value:
        free(begin.value)
    return text
