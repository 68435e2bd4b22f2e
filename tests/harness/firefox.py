"""Firefox, told what to do by WebDriver BiDi over its own port: Debian has no geckodriver."""

import base64
import json
import os
import shutil
from typing import Any, Dict, Mapping, Sequence

from tests.harness.driver import GONE, SECONDS, PageLeft, Told
from tests.harness.room import Room, Skip

#: It asks nobody for anything.
PREFERENCES = {
    'datareporting.policy.dataSubmissionEnabled': False,
    'app.update.auto': False,
    'browser.shell.checkDefaultBrowser': False,
    'network.captive-portal-service.enabled': False,
    'network.connectivity-service.enabled': False,
    'dom.w3c_touch_events.enabled': 1,
}


class Firefox(Told):
    """Its first tab."""

    way = '/session'

    def __init__(self, room: Room, path: str, seconds: float = SECONDS) -> None:
        profile = f'{room.path}/firefox'
        os.makedirs(profile, exist_ok=True)
        with open(f'{profile}/user.js', 'w', encoding='utf-8') as file:
            file.writelines(f'user_pref({json.dumps(name)}, {json.dumps(value)});\n' for name, value in PREFERENCES.items())
        words = [path, '--headless', '--no-remote', '--remote-debugging-port=0', '--profile', profile]
        super().__init__(room, words, seconds, MOZ_HEADLESS='1', MOZ_DISABLE_CONTENT_SANDBOX='1')

    def _begin(self) -> None:
        self._ask('session.new', capabilities={})
        self._tab: str = self._ask('browsingContext.getTree')['contexts'][0]['context']

    def go(self, url: str) -> None:
        self._ask('browsingContext.navigate', context=self._tab, url=url, wait='complete')

    def value(self, expression: str) -> Any:
        target = {'context': self._tab}
        found = self._ask('script.evaluate', expression=f'Promise.resolve({expression}).then(JSON.stringify)', target=target, awaitPromise=True)
        assert found['type'] == 'success', found
        return json.loads(found['result'].get('value', 'null'))

    def perform(self, actions: Sequence[Dict[str, Any]]) -> None:
        self._ask('input.performActions', context=self._tab, actions=list(actions))

    def size(self, width: int, height: int) -> None:
        self._ask('browsingContext.setViewport', context=self._tab, viewport={'width': width, 'height': height})

    def open(self) -> str:
        self._tab = str(self._ask('browsingContext.create', type='tab')['context'])
        return self._tab

    def turn_to(self, tab: str) -> None:
        self._tab = tab
        self._ask('browsingContext.activate', context=tab)

    def close_tab(self) -> None:
        self._ask('browsingContext.close', context=self._tab)

    def printed(self) -> bytes:
        """The page in PDF, on A4 without margins."""
        margins = dict.fromkeys(('top', 'bottom', 'left', 'right'), 0)
        return base64.b64decode(self._ask('browsingContext.print', context=self._tab, margin=margins, page={'width': 21.0, 'height': 29.7})['data'])

    @property
    def tab(self) -> str:
        return self._tab

    def _ask(self, method: str, **parameters: Any) -> Mapping[str, Any]:
        answer = self._answer(self._tell(method, parameters))
        if answer.get('error') == GONE:
            raise PageLeft(f'{method}: {answer}')
        assert answer['type'] == 'success', f'{method}: {answer}'
        result: Mapping[str, Any] = answer['result']
        return result


def firefox(room: Room) -> Firefox:
    """Where there is none the case is skipped."""
    path = shutil.which('firefox-esr') or shutil.which('firefox')
    if not path:
        raise Skip('there is no Firefox')
    return Firefox(room, path)
