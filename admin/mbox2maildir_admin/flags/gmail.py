"""What Gmail's own labels stand for, by the names that a Takeout has for them.

The roles are those of the Gmail API, "Manage labels" (https://developers.google.com/gmail/api/guides/labels): INBOX,
SENT, DRAFT, SPAM, TRASH, UNREAD, STARRED, IMPORTANT and the categories. The English names are those of the field
`X-Gmail-Labels` in a Takeout. Those of other languages are the names of Gmail's folders there, as its pages and IMAP
(below `[Gmail]`) have them; no Takeout in another language was tried. The name for mail that was read is no folder's,
and only a Takeout has it: owners of German ones report `Geöffnet`. For other languages no public source was at hand,
and a human names it (`--label NAME=read`). The names of the folders are those that Dovecot's `15-mailboxes.conf` marks
for clients.
"""
import enum
from collections.abc import Iterable, Mapping, Sequence


class Own(enum.Enum):
    """What a label stands for that makes no folder of its name: a folder, by its name; a flag; or nothing. Flags and
    nothing have the words of `--label`."""

    INBOX = "INBOX"
    SENT = "Sent"
    DRAFTS = "Drafts"
    JUNK = "Junk"
    TRASH = "Trash"
    READ = "read"
    UNREAD = "unread"
    STARRED = "starred"
    NONE = "none"


Roles = Mapping[str, Own]

# the folder of mail that has no other one, and the folders in the order in which one of them is chosen
ARCHIVE = "Archive"
ORDER = Own.INBOX, Own.SENT, Own.DRAFTS, Own.JUNK, Own.TRASH
CATEGORIES = "Personal", "Social", "Promotions", "Updates", "Forums", "Purchases"
MARKS = "Snoozed", "Muted", "Scheduled", *("Category %s" % name for name in CATEGORIES)

# what the names of a language stand for, in their order, as many as are known
NAMED = *ORDER, Own.STARRED, Own.NONE, Own.NONE, Own.UNREAD, Own.READ
ENGLISH, *OTHERS = (
    dict(zip(names.split(", "), NAMED))
    for names in (
        "Inbox, Sent, Drafts, Spam, Trash, Starred, Important, Archived, Unread, Opened",
        "Posteingang, Gesendet, Entw\u00fcrfe, Spam, Papierkorb, Markiert, Wichtig, Archiviert, "
        "Ungelesen, Ge\u00f6ffnet",
        "Bo\u00eete de r\u00e9ception, Messages envoy\u00e9s, Brouillons, Spam, Corbeille, Suivis, Importants, "
        "Archiv\u00e9s, Non lus",
        "Recibidos, Enviados, Borradores, Spam, Papelera, Destacados, Importantes, Archivados, No le\u00eddos",
        "Posta in arrivo, Posta inviata, Bozze, Spam, Cestino, Speciali, Importanti, Archiviati, Da leggere",
        "Postvak IN, Verzonden, Concepten, Spam, Prullenbak, Met ster, Belangrijk, Gearchiveerd, Ongelezen",
        "Caixa de entrada, Enviados, Rascunhos, Spam, Lixeira, Com estrela, Importante, Arquivados, N\u00e3o lidos",
        # Russian: Vkhodyashchiye, Otpravlennyye, Chernoviki, Spam, Korzina, Pomechennyye
        "\u0412\u0445\u043e\u0434\u044f\u0449\u0438\u0435, "
        "\u041e\u0442\u043f\u0440\u0430\u0432\u043b\u0435\u043d\u043d\u044b\u0435, "
        "\u0427\u0435\u0440\u043d\u043e\u0432\u0438\u043a\u0438, \u0421\u043f\u0430\u043c, "
        "\u041a\u043e\u0440\u0437\u0438\u043d\u0430, \u041f\u043e\u043c\u0435\u0447\u0435\u043d\u043d\u044b\u0435",
        # Japanese: jushin torei, soshin-zumi meru, shitagaki, meiwaku meru, gomibako, suta-tsuki, juyo
        "\u53d7\u4fe1\u30c8\u30ec\u30a4, \u9001\u4fe1\u6e08\u307f\u30e1\u30fc\u30eb, \u4e0b\u66f8\u304d, "
        "\u8ff7\u60d1\u30e1\u30fc\u30eb, \u30b4\u30df\u7bb1, \u30b9\u30bf\u30fc\u4ed8\u304d, \u91cd\u8981",
        # Chinese: shoujianxiang, yifa youjian, caogao, laji youjian, yishanchu youjian, yijia xingbiao
        "\u6536\u4ef6\u7bb1, \u5df2\u53d1\u90ae\u4ef6, \u8349\u7a3f, \u5783\u573e\u90ae\u4ef6, "
        "\u5df2\u5220\u9664\u90ae\u4ef6, \u5df2\u52a0\u661f\u6807",
    )
)
ENGLISH.update({"Draft": Own.DRAFTS, **{name: Own.NONE for name in MARKS}})
# each language by its word for Inbox; a name that several of them have stands for the same in each
LANGUAGES: Mapping[str, Roles] = {next(iter(names)): names for names in (ENGLISH, *OTHERS)}
KNOWN = frozenset[str]().union(*LANGUAGES.values())


def language_of(several: Iterable[Iterable[str]], earlier: Iterable[str] = ()) -> str:
    """The language of Gmail's own labels in a mailbox whose messages have these labels, by its word for Inbox. It is
    another one than English if its word is among them, and no label `Inbox`, unless earlier mailboxes had that
    language: what is a folder of Gmail's in one language may be somebody's label in another. In a mailbox without a
    word for Inbox it is one of which each message has a name, since Gmail says of each where it is, if none has a name
    that only others have."""
    messages = {frozenset(labels) for labels in several}
    there = frozenset[str]().union(*messages)
    languages = [inbox for inbox in (*earlier, *LANGUAGES) if inbox in there]
    if not languages:
        gmails = there & KNOWN
        whole = [inbox for inbox, names in LANGUAGES.items() if gmails <= names.keys()]
        languages = [inbox for inbox in whole if all(LANGUAGES[inbox].keys() & labels for labels in messages)]
    return next(iter(languages), "Inbox")


def own_names(languages: Iterable[str]) -> Roles:
    """The names of Gmail's own labels in English and in some languages."""
    return {name: role for inbox in ("Inbox", *languages) for name, role in LANGUAGES.get(inbox, {}).items()}


def letters_by(several: Sequence[tuple[str, ...]], roles: Roles) -> tuple[list[str], bytes]:
    """The flags of messages that have these labels; and of each, if no label of any says that mail was read, whether
    none says that it is unread."""
    known, is_said = {}, False
    for labels in set(several):
        found = {roles.get(label) for label in labels}
        is_said = is_said or Own.READ in found
        is_seen = Own.READ in found and Own.UNREAD not in found
        known[labels] = "F" * (Own.STARRED in found) + "S" * is_seen, Own.UNREAD not in found
    unsaid = b"" if is_said else bytes(known[labels][1] for labels in several)
    return [known[labels][0] for labels in several], unsaid
