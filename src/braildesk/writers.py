"""Who may write or read a file, by its mode and by the list of access (ACL) that it may have."""

import os
from typing import BinaryIO

from braildesk.workshop import access_list, groups_of

#: Whom an entry of a list is about: a user, the group of the file, another group, or all who aren't
#: named; and what users and groups that are named may do at most.
_USER, _OWN_GROUP, _GROUP, _MOST, _OTHERS = 0x02, 0x04, 0x08, 0x10, 0x20
#: A user or a group by its number, or anybody.
_User = tuple[int, int]
_ANYBODY = (_OTHERS, 0)


def has_more_writers(file: BinaryIO, other: BinaryIO) -> bool:
    """Whether somebody may write a file who may not write another one."""
    return _has_more(file, other, os.W_OK)


def has_more_readers(file: BinaryIO, other: BinaryIO) -> bool:
    """Whether somebody may read a file who may not read another one."""
    return _has_more(file, other, os.R_OK)


def _has_more(file: BinaryIO, other: BinaryIO, leave: int) -> bool:
    known, users = _users(other, leave), _users(file, leave)
    if _ANYBODY not in known and not all(_is_one_of(known, each) for each in users):
        return True
    # whom the list of the other one refuses may be anybody here, or in a group
    refused = _refused(other, leave) - _refused(file, leave)
    return any(_is_let(users, known, each) for each in refused)


def _users(file: BinaryIO, leave: int) -> frozenset[_User]:
    """Who has leave to use a file, with its owner, who may give that leave at any time."""
    found = os.fstat(file.fileno())
    by_mode = [(_OWN_GROUP, found.st_mode >> 3, 0), (_OTHERS, found.st_mode, 0)]
    listed = access_list(file.fileno()) or by_mode
    most = next((may for tag, may, _ in listed if tag == _MOST), leave)
    users = {(_USER, found.st_uid)}
    for tag, may, whom in listed:
        if tag == _OTHERS and may & leave:
            users.add(_ANYBODY)
        elif tag == _OWN_GROUP and may & most & leave:
            users.add((_GROUP, found.st_gid))
        elif tag in (_USER, _GROUP) and may & most & leave:
            users.add((tag, whom))
    return frozenset(users)


def _refused(file: BinaryIO, leave: int) -> frozenset[_User]:
    """The users and groups that a list of access names and gives no leave, but for those who have it anyway."""
    most = os.fstat(file.fileno()).st_mode >> 3
    anyway = {(_USER, os.fstat(file.fileno()).st_uid), (_USER, os.geteuid())}
    listed = access_list(file.fileno())
    named = [each for each in listed if each[0] in (_USER, _GROUP)]
    found = {(tag, whom) for tag, may, whom in named if not may & most & leave}
    return frozenset(found - anyway)


def _is_let(users: frozenset[_User], known: frozenset[_User], who: _User) -> bool:
    """Whether somebody is among those who may use a file, but for those who may use the other one anyway."""
    kind, number = who
    if _ANYBODY in users or who in users:
        return True
    if kind == _GROUP:
        # who is in both groups may use what one of them may
        return any(each[0] == _GROUP for each in users - known)
    return any((_GROUP, group) in users for group in groups_of(number) or [])


def _is_one_of(known: frozenset[_User], who: _User) -> bool:
    """Whether somebody is among those who may use a file, as this user and root are."""
    kind, number = who
    if who in known or kind != _USER:
        return who in known
    if number in (0, os.geteuid()):
        return True
    # a user whom the system doesn't know is in no group
    return any((_GROUP, group) in known for group in groups_of(number) or [])
