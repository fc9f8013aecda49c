"""The portal of a desktop on the session bus, as far as a window asks it: its settings, which change.

As a program it has the settings that stand in its words, three for each, and those of the lines that
come in: a namespace, a key and a value. That it is there is said in a line.
"""

import signal
import subprocess
import sys
from typing import Any

import gi  # type: ignore[import]

gi.require_version("Gio", "2.0")
from gi.repository import Gio, GLib  # type: ignore[import]  # noqa: E402

Key = tuple[str, str]

CONTRAST = ("org.freedesktop.appearance", "contrast")
SCHEME = ("org.freedesktop.appearance", "color-scheme")
OF_GNOME = ("org.gnome.desktop.a11y.interface", "high-contrast")

_NAME = "org.freedesktop.portal.Desktop"
_PATH = "/org/freedesktop/portal/desktop"
_INTERFACE = "org.freedesktop.portal.Settings"
_XML = f"""<node><interface name="{_INTERFACE}">
<method name="Read">
<arg type="s" direction="in"/><arg type="s" direction="in"/><arg type="v" direction="out"/>
</method>
<signal name="SettingChanged"><arg type="s"/><arg type="s"/><arg type="v"/></signal>
</interface></node>"""
_NOT_FOUND = "org.freedesktop.portal.Error.NotFound"


class Portal:
    """A portal in a process of its own."""

    def __init__(self, *settings: tuple[Key, str]) -> None:
        words = [word for key, value in settings for word in (*key, value)]
        self._program = subprocess.Popen(
            [sys.executable, __file__, *words],
            stdin=subprocess.PIPE,
            stdout=subprocess.PIPE,
            text=True,
        )
        assert self._program.stdout is not None
        assert self._program.stdout.readline() == "there\n"

    def set(self, key: Key, value: str) -> None:
        """Has a setting be another one, which those that listen are told of."""
        assert self._program.stdin is not None
        self._program.stdin.write(f"{' '.join(key)} {value}\n")
        self._program.stdin.flush()

    def pause(self) -> None:
        """Has it do nothing, as on a machine that has much other work."""
        self._program.send_signal(signal.SIGSTOP)

    def go_on(self) -> None:
        """Has it do what was asked meanwhile."""
        self._program.send_signal(signal.SIGCONT)

    def end(self) -> None:
        """Ends it."""
        self._program.communicate()


def _value(word: str) -> Any:
    is_flag = word in ("true", "false")
    return (
        GLib.Variant("b", word == "true") if is_flag else GLib.Variant("u", int(word))
    )


def _serve(words: list[str]) -> None:
    triples = zip(words[::3], words[1::3], words[2::3])
    settings = {(space, key): _value(word) for space, key, word in triples}
    loop, bus = GLib.MainLoop(), Gio.bus_get_sync(Gio.BusType.SESSION, None)

    def called(*call: Any) -> None:
        *_, parameters, invocation = call
        space, key = parameters.unpack()
        value = settings.get((space, key))
        if value is None:
            invocation.return_dbus_error(_NOT_FOUND, "There is no such setting.")
        else:
            # the portal has a value in a value, by a mistake that stays
            inner = GLib.Variant("v", value)
            invocation.return_value(GLib.Variant("(v)", (inner,)))

    def came(channel: int, condition: Any) -> bool:
        line = sys.stdin.readline()
        if not line:
            loop.quit()
            return False
        space, key, word = line.split()
        settings[space, key] = _value(word)
        told = GLib.Variant("(ssv)", (space, key, settings[space, key]))
        bus.emit_signal(None, _PATH, _INTERFACE, "SettingChanged", told)
        return True

    its = Gio.DBusNodeInfo.new_for_xml(_XML).interfaces[0]
    bus.register_object(_PATH, its, called, None, None)
    GLib.io_add_watch(0, GLib.IO_IN | GLib.IO_HUP, came)
    Gio.bus_own_name_on_connection(
        bus, _NAME, 0, lambda *_: print("there", flush=True), lambda *_: loop.quit()
    )
    loop.run()


if __name__ == "__main__":
    _serve(sys.argv[1:])
