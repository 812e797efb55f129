#!/usr/bin/env python3
"""Respells the names of this repository's definitions and lemmas, once: words in snake case, facts in camel case.

Run at the top, right after the toolchain's own script has turned an older checkout. It changes names in specs, proofs,
the clauses of sources, must-fail edits and documents; functions, strings, inputs and outputs keep theirs.
A name stands here in its older spelling. A part of a name between dashes is a name.
"""

import glob
import re

WORDS = """
addressAfter addressCall addressText addressWord afterAsk afterFive agreesWith allDigits answerText atAddress
atStep becameValid bitAt bitOf blockAnswer blockAsks blockLeft blockResult blockText blocksAt blocksChecked
blocksIn blocksSet builtRows builtWidth byteOf byteSearched bytesOf callText causeText cellAtEmpty cellAtHit
cellCall chainD chainP changeAt changedChannel channelIn channelNumbered channelOf channelText checkedCut
checkedStarts commandCause cutRow depthAt deviceRows deviceWidth differTo emptyBuffers emptyIs eventOf
expectedText faultAt faultText fencedRows firstBreak firstState fiveRows flagAt flagOf flagText flagUpTo
flagsCause flagsFaultText flagsSoFar forFive foundIn fourText frameA frameB frameD frameP freshChannel
freshInput freshInputStep freshOutputStep freshRows freshSetUp freshWidth fullFrom fullJoined fullText getD
hasBit hexDigits hexText hitAnd hitText hitThen hitsAre hitsFrom hitsIn hitsJoined hitsText ifAny inLine
inputChecked inputEnd inputEnds inputFlags inputStarted inputStepChecked inputStepIn inputStepOf inputStepSet
inputStepText inputText isBlank isHex isHit isLetter isOpen isText isWidth isWord itemNamed itemText
itemWithin itemWord joinRows joinedRows joinedWidth keyWord keysText lentMarks lentWords levelRows levelWidth
lineAtEmpty lineEnd madeValid markingAt marksAt marksGiven marksOf marksPurged marksSearched marksSwept
marksText marksThen marksUnvisited marksWritten memberRows memberSeatRows memberSeatWidth memberWidth memoryOf
nameMarks nameWords nextEmpty nextEnd nextHit nextWord noHits numberOf numeralOf ofKind onCell onRow onSegment
openAnswer openAsks openLeft orFault orOther outputAt outputChecked outputEnds outputStarted outputStepAt
outputStepChecked outputStepIn outputStepOf outputStepSet outputStepText outputText ownFlag pairFrame pairRows
pairWidth pileRows pileWidth placeAfter placeText placesFor planesOf planesRows portCall portCause portEvent
portRegs portReply portRows portText purgeAt purgeName purgeNamed readCall refusedAt replyTo rowAt rowEvent
rowRegs rowReply rowRows rowSearched rowSwept rowText rowsA rowsAfter rowsB rowsD rowsIn rowsL rowsP rowsT
rowsTU rowsU runningFlag sameD sameP searchAt searchFlags searchRegs searchReply searchResult searchRows
searchText searchedInput seatIn seatOf setUpCall setUpCause setUpNumber setUpPlace setUpRegs setUpReply
setUpText shiftedIn someEnds soundD soundP startCause startNumber startPlace stateIn stateName stateNamed
stateText statusWord stepAnswer stepAt stepBits stepIn stepLeft stepText stepTo tableCall tableCause
takenInput takenTo thenNine toldIn toldText twoNumbers valueAfter walkCall walkEvent walkName walkRegs
walkReply widthA widthAsked widthB widthChecked widthD widthL widthP widthSet widthText widthU withBit
withChannel withEmpty withFlag withFound withInput withInputStep withOutput withOutputStep withSetUp
wordAnswer wordAt wordEnd wordFollowing wordIn wordLeft wordOf wordResult wordStart wordsOf
"""

# Lemmas whose names join plain words, which take an underscore; a dash stays between the names of two definitions.
LEMMAS = """
address-bits after-blocks after-empty after-found after-input-start after-input-step after-output-start
after-output-step after-width agree-bit agrees-push ahead-next all-rows and-digits and-true asked-more
asked-none at-lowest at-past below-lowest bit-agrees bit_at-le bit_of-above bit_of-none bit_of-ones
bit_of-power bit_of-with bit_of-without bit_of-zero block-effect both-cells both-rows break-at break-none
by-block by-empty-walk by-input-start by-input-step by-output-start by-output-step by-run by-search by-stop
by-test byte-remarked bytes_of-rows calls_of-push cell-alike cell-lower cell-segment cell-upper chain-of
change-lower change-upper change-valid changed-all changed-lower changed-upper column-is column-lt cond-ok
continued-all continued-bad continued-more continued-over count-all count-fail count-more count-pass
count-skip cut-passed cut-sound decimal-letters decimal-number depth-after depth-lived depth-port depth-row
depth-worked differ-all differ-more differ-none differ-turn digit-letter digits-all digits-letters
eight-digits empty-read even-marked even-purged even-searched even-unvisited even-vacated even-written
every-at fails-later few-cells first-before first-from-least first-join first-least first-lower first-none
first-upper fitting-most fitting-over flag-before flag-found flag-next flag-none flag-quiet found-passes
four-digits four-keys frame-chain from-head full-assoc full-before full-empty full-head full-here full-laws
full-none full-read full-right full-skip full-split good-event good-first good-life good-move good-next
good-rewind good-search good-unvisited granted-new granted-old handed-none handed-on handed-over handed-told
head-hit hex-letters hex-number hex-some hex-value hex_digits-more hit-at hit-read hits-assoc hits-before
hits-by hits-empty hits-head hits-here hits-laws hits-none hits-one hits-one-before hits-read hits-right
hits-several hits-skip hits-split in-lower in-upper input-closed input-kept input-place input-within
inputs-kept join-change join-map join-sound joined-shifted kept-all laid-from-whole laid-opened laid-put
laid-remarked leading-letters least-bit least-here least-later least-matched least-none least-one least-rows
length-join length-rows letter-no-blank lived-ask lived-more lived-none lived-push low-shifted lowest-first
lowest-next lowest-none map-swap mapped-mapped mapped-or_other mapped-same marks-here marks-lower marks-shown
marks-upper marks_at-rows next-number next-read no-blank number-decimal number-here number-hex number-next
number_of-lt number_of-more number_of-unset numbers-32-read-back numbers-64-read-back numeral-from
numeral-within or-false output-closed output-kept output-place output-within outputs-kept place-granted
place-row place-segment places-told plane-bit planes-laid port-effect purge-mark put-empty put-here put-plane
quiet-between quiet-cond quiet-given quiet-marked quiet-marks_of quiet-opened quiet-purged quiet-searched
quiet-swept quiet-written read-shown reads-back remarked-is remarked-more remarked-none replaced-bit
replies-more replies-none replies-push rest-marks rest-words row-alike row-effect row-granted row-lower
row-means row-refused row-shown row-upper row-vacant row_at-join row_at-lower row_at-rows row_at-upper
rows-change rows-map rows-marked rows-opened rows-purged rows-remarked rows-searched rows-unvisited
rows-vacated running-told same-digit same-outputs same-state same-to search-effect search-granted searched-all
seat-lower seat-upper segment-alike segment-granted segment-refused segment-stands segment-told
set-marks-lower set-marks-upper set-up-effect shown-sound sixteen-digits some-cond some-set some_ends-here
some_ends-more some_ends-past some_ends-step sound-of sound-row sound-rows stands-head stands-next stands-row
stands-unvisited start-here start-next start-within stays-ahead step-hit step_bits-lt step_bits-more
taken-away test-row tidy-remarked tidy-set trailing-set two-hits unless-none value_after-ge walk-effect
walks-complete whole-from-laid with_bit-from with_bit-lt word-at-is word-end-is word-inside word-past
word_at-rows word_in-cut word_of-lt words-here words-other words-written words_of-rows write-lower write-upper
written-more xor-digits
"""

# Lemmas that would get the name of the definition that they are about, or have a dash that stays.
OTHERS = {
    "byte-searched": "byte_searched_lem",
    "number-at": "number_at_lem",
    "hex-digits": "hex_digits_lem",
    "and-not-last": "and-not_last",
    "row_at-change-same": "row_at-change_same",
    "row_at-change-other": "row_at-change_other",
    "change-append-left": "change-append_left",
    "change-append-right": "change-append_right",
}

# A definition that is a fact is spelled as a type. The files in which the name stands for it.
FACTS = [
    ("frame_of", "FrameOf", "crates/cascade"),
    ("frameOf", "FrameOf", "crates/cascade"),
    ("answered", "Answered", "crates/flags/specs"),
    ("pairFrame", "PairFrame", "crates/pile"),
]


def snake(name):
    if name == "getD":
        return "get_or"
    return re.sub(r"(?<=[a-z0-9])(?=[A-Z])", "_", name).lower()


def whole(name):
    return re.compile(r"(?<![A-Za-z0-9_'])" + re.escape(name) + r"(?![A-Za-z0-9_'])")


def files():
    for at in ["crates/*/specs", "crates/*/proofs"]:
        yield from glob.glob(at + "/**/*.antt", recursive=True)
    yield from glob.glob("crates/*/src/**/*.rt", recursive=True)
    yield from glob.glob("crates/*/must-fail/*.edit")
    yield from glob.glob("docs/*.md")
    yield from glob.glob("*.md")


def respelled(path, text):
    for old, new, place in FACTS:
        if path.startswith(place):
            text = whole(old).sub(new, text)
    parts = re.split(r"(\"(?:[^\"\\\n]|\\.)*\")", text) if path.endswith(".rt") else [text]
    for i in range(0, len(parts), 2):
        parts[i] = lemmas(path, ANY.sub(lambda m: snake(m.group(0)), parts[i]))
    return "".join(parts)


def lemmas(path, text):
    """Whole words alone. In a source they stand in ghost items; names that proofs are given, as c.row-told, stay."""
    lines = text.split("\n")
    for i, line in enumerate(lines):
        if path.endswith(".antt") and not line.lstrip().startswith("--") or "ghost " in line:
            lines[i] = LEMMA.sub(lambda m: TURNED[m.group(0)], line)
    return "\n".join(lines)


ANY = re.compile(r"(?<![A-Za-z0-9_'])(?:" + "|".join(sorted(WORDS.split(), key=len, reverse=True)) + r")(?![A-Za-z0-9_'])")

TURNED = {name: name.replace("-", "_") for name in LEMMAS.split()} | OTHERS
LEMMA = re.compile(
    r"(?<![^\s(){};,@])(?<!\bc\.)(?<!\bgoal\.)(?:" + "|".join(map(re.escape, sorted(TURNED, key=len, reverse=True))) + r")(?![^\s(){}.;,@])"
)

if __name__ == "__main__":
    for path in sorted(files()):
        with open(path, encoding="utf-8") as f:
            text = f.read()
        turned = respelled(path, text)
        if turned != text:
            with open(path, "w", encoding="utf-8") as f:
                f.write(turned)
