"""That the check can fail: a good page is damaged in many ways, and each must be noticed, for the right reason."""
import re

from check_facts import Facts
from check_script import check_kinds, differences, make_page

# what is damaged; where, as a pattern whose first group stays; what is put behind it; a word that the check must then say
DAMAGES = [
    ("an answer", r'(<tr id="L13".*?<td class="answer">[^0-9]*)10', "11", "answer:"),
    ("the words of an answer", r'(<tr id="L13".*?)source not the one demanded', "source not known", "answer:"),
    ("an accepted answer", r'(<tr id="L8".*?<td class="answer">[^0-9]*)0', "1", "answer:"),
    ("a change removed", r'(<tr id="L16".*?)<li>STATUT.*?</li>', "", "change of 19h"),
    ("a change added", r'(<tr id="L16".*?)<li>STATUT', "<li>TCYC (18h): FFh → 0Ah</li><li>STATUT", "change of 18h"),
    ("a list of changes removed", r'(<tr id="L8".*?)<ul>.*?</ul>', "", "changes:"),
    ("an old value", r'(<tr id="L12".*?)01 → 03', "02 → 03", "change of 80h"),
    ("a new value", r'(<tr id="L5".*?AAh → )55h', "54h", "change of 17h"),
    ("a name of a register", r'(<tr id="L5".*?)<li>OUT_REP \(17h\)', "<li>TCYC (17h)", "cannot be read"),
    ("a run of outputs torn apart", r'(<tr id="L8".*?)outputs 80h to 81h: 00 00 → 01 FF',
     "output 80h: 00 → 01</li><li>output 81h: 00 → FF", "belongs to the run"),
    ("a row removed", r'()<tr id="L9".*?</tr>', "", "rows:"),
    ("a row twice", r'()(?=<tr id="L9")', '<tr id="L8" class="ok"></tr>', "rows:"),
    ("two rows in another order", r'()(<tr id="L9".*?</tr>)(\s*)(<tr id="L10".*?</tr>)', r"\4\3\2", "rows:"),
    ("a mark removed", r'()<a id="M9".*?</a>', "", "marks:"),
    ("the class of a mark", r'(<a id="M9" class=")write', "read", "mark 9, class"),
    ("the title of a mark", r'(<a id="M10".*?<title>[^<]*)255', "256", "mark 10, the title"),
    ("the answer in the title of a mark", r'(<a id="M13".*?<title>[^<]*)10 source', "11 source", "mark 13, the title"),
    ("the number of a refused mark", r'(<a id="M9".*?<text class="number"[^>]*>)13', "14", "mark 9, number"),
    ("the class of a row", r'(<tr id="L9" class=")refused', "ok", "row 9, class"),
    ("an unescaped <", r"(<h1>)", "<", "not well-formed"),
    ("an unknown reference", r"(<h1>)", "&nbsp;", "not well-formed"),
    ("an element closed as in XML alone", r'(<tr id="L9".*?)<td class="reply"></td>', '<td class="reply"/>', "HTML:"),
    ("a paragraph in a paragraph", r'(<p id="end"[^>]*>)', "<p></p>", "would be moved"),
    ("a mode", r'(<tr id="L7".*?)RUN 11', "fallback 11", "mode:"),
    ("a cycle", r'(<tr id="L7".*?)RUN 11', "RUN 12", "mode:"),
    ("a time", r'(<tr id="L7".*?<td class="time">)255', "256", "time:"),
    ("a port", r'(<tr id="L7".*?<td class="port">)1', "2", "port:"),
    ("a frame", r'(<tr id="L7".*?src=00000)7', "8", "what:"),
    ("a number of ticks", r'(<tr id="L6".*?)255 ticks', "254 ticks", "what:"),
    ("the place that a write is for", r'(<tr id="L5".*?), to OUT_REP', ", to TCYC", "is not the place"),
    ("a reply", r'(<tr id="L7".*?<td class="reply">.*?seq=E)E', "F", "reply:"),
    ("a reply removed", r'(<tr id="L7".*?<td class="reply">).*?</td>', "</td>", "reply:"),
    ("a reply added", r'(<tr id="L8".*?<td class="reply">)', "response <code>x</code>", "reply:"),
    ("when the mode changed in a T line", r"(<p>after )1 ms", "2 ms", "changes:"),
    ("the text of a BAD line", r'(<tr id="L17".*?&lt;)i', "b", "is not shown as it is"),
    ("a byte of a BAD line", r'(<tr id="L17".*?<span class="byte">)0D', "0A", "is not shown as it is"),
    ("the style that keeps spaces", r"(\bcode\b[^{}]*\{[^{}]*white-space: *)[a-z-]+", "normal", "spaces:"),
    ("the reason of a BAD line", r'(<tr id="L17".*?<td class="answer">).*?</td>', "BAD</td>", "answer:"),
    ("a load", r"(thousandths, remainder )490000", "490001", "load:"),
    ("a bar of load removed", r'()<a class="load" href="#L7".*?</a>', "", "load:"),
    ("a band by one millisecond", r"(fallback from 0 ms to )255( ms.*?RUN from )255", r"256\g<2>256", "bands:"),
    ("a band removed", r'()<rect class="mode run".*?</rect>', "", "bands:"),
    ("a band elsewhere", r'(<rect class="mode run"[^>]*? x=")', "1", "bands: one ends"),
    ("the place of an end of a cycle", r'(.*<path class="clock"[^>]*? d="M)[\d.]+', "1", "and the clock's ends about it do not"),
    ("the same, beside the others", r'(.*<path class="clock"[^>]*? d="M)[\d.]+', "1", "closer than"),
    ("an end of a cycle by one millisecond", r'(<path class="clock"[^>]*><title>)510', "511", "clock:"),
    ("an end of a cycle removed", r'()<path class="clock".*?</path>', "", "clock:"),
    ("a change of outputs removed", r'()<a class="outputs" href="#L12".*?</a>', "", "outputs:"),
    ("a change of outputs in another line", r'(<a class="outputs" href=")#L12', "#L11", "outputs:"),
    ("outputs in a title", r'(<a class="outputs" href="#L12".*?01 → )03', "04", "outputs of line 12"),
    ("the shape of a sync", r'(<a id="M7".*?<path class="shape"[^>]*? d=")[^"]*', "M0 0h1", "shapes:"),
    ("a SID in the legend", r'(<ul id="legend">.*?00000)7', "9", "shapes:"),
    ("two SIDs in the legend", r'(<ul id="legend">.*?00000)7(.*?00000)8', r"8\g<2>7", "shapes:"),
    ("a strip for printing removed", r'()<svg [^>]*class="strip".*?</svg></svg>', "", "strips:"),
    ("the title", r"(<title>)standard", "Standard", "top: <title>"),
    ("the title above the page", r"(<h1>)standard", "Standard", "top: <h1>"),
    ("the end", r'(<p id="end"[^>]*>Ends in )fallback', "RUN", "end:"),
    ("the cycle at the end", r'(<p id="end"[^>]*>.*?)14h', "13h", "end:"),
    ("the ground", r'(<p id="ground"[^>]*>.*?)sync silence', "window", "ground:"),
    ("what mattered", r'(<p id="which"[^>]*>)The script itself ends in fallback', "No single frame mattered", "which:"),
    ("how many milliseconds", r'(<p id="drawn"[^>]*>.*?)1,020', "1,021", "drawn:"),
    ("a count", r'(<table id="counts">.*?<td>accepted</td><td>)14', "15", "counts:"),
    ("a word about lines left out", r'(<section id="rows">)', '<p id="rest">Line 18 is not drawn.</p>', "rest:"),
    ("the words for a kind of frame", r'(<tr id="L7".*?<td class="what">)sync', "sink", "the kind sync"),
    ("the same words for two kinds of frames", r'(<tr id="L1".*?<td class="what">)TID', "SID", "the kind tid"),
    ("a row of the counts removed", r'(<table id="counts">.*?)<tr><td>13</td>.*?</tr>', "", "counts:"),
    ("a link to elsewhere", r'(<td class="line"><a href=")#M1"', 'http://example.invalid/"', "unsafe: href"),
    ("a link to nowhere", r'(<td class="line"><a href=")#M1"', '#M99"', "leads nowhere"),
    ("an id twice", r'(<p id=")ground', "end", "occurs 2 times"),
    ("a script", r"()</header>", "<script>1</script></header>", "unsafe: <script>"),
    ("an event attribute", r'(<p )id="end"', 'onclick="x" id="end"', "unsafe: onclick"),
    ("a picture", r"()</header>", '<img src="x.png"/></header>', "unsafe: src"),
    ("a style that fetches", r"(<style>)", "body { background: url(http://example.invalid/) }", "unsafe: the style"),
    ("a style attribute that fetches", r'(<p )id="end"', 'style="background: url(x)" id="end"', "unsafe: style"),
    ("a CR", r"(<h1>)", "\r", "unsafe: a CR"),
    ("the policy", r"(default-src ')none", "self", "unsafe: the policy"),
]


def noticed(page, facts, header):
    kinds = {}
    return differences(page, facts, header, kinds) + list(check_kinds([kinds]))


def check_damages(view, programs, header, script):
    """Damages the page of the script, to which a BAD line is added. Returns how many damages there are, and what is wrong."""
    script += b"\0<i>\r\n"
    facts = Facts(programs, script)
    page, wrong = make_page(view, script)
    wrong += noticed(page, facts, header)
    if wrong:
        return 0, [f"the page that is to be damaged: {what}" for what in wrong]
    text = page.decode("utf-8")
    for what, pattern, instead, word in DAMAGES:
        damaged = re.sub(pattern, lambda match, instead=instead: match[1] + match.expand(instead), text, count=1, flags=re.DOTALL)
        found = noticed(damaged.encode("utf-8"), facts, header)
        if damaged == text:
            wrong.append(f"{what}: the place to damage was not found")
        elif not any(word in difference for difference in found):
            wrong.append(f"{what}: damaged, and not noticed; the check says {found[:2]} and not {word!r}")
    return len(DAMAGES), wrong
