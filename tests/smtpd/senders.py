"""Sessions that send mail after mail, and what they were answered."""
import random
import smtplib
import threading
import time

from host import session_at

# seconds between two recipients of a session, after one that is answered 451, and after one that
# the limit refused
PACE, AFTER_451, AFTER_FULL = 0.2, 0.5, 1.0


class Sender(threading.Thread):
    """A session of a login at a mail host: messages of one to five recipients, of which some are
    reset, and some cut off."""

    def __init__(self, address, login, seed, pace=PACE):
        super().__init__(daemon=True)
        self.address, self.login, self.dice, self.pace = address, login, random.Random(seed), pace
        # whether it sends nothing for a while, without a session
        self.is_over = self.rests = False
        # when a recipient was sent and answered, and the answer's code
        self.answers = []
        # recipients of messages that were sent
        self.accepted = 0
        self.unanswered = []

    def run(self):
        smtp = None
        while not self.is_over:
            try:
                if self.rests:
                    smtp = self.rest(smtp)
                    continue
                if smtp is None:
                    smtp = session_at(587, self.login, self.address)
                smtp = self.message(smtp)
            except (OSError, smtplib.SMTPException) as error:
                self.unanswered.append((time.monotonic(), repr(error)))
                smtp = None
                time.sleep(1)
        if smtp:
            smtp.quit()

    @staticmethod
    def rest(smtp):
        if smtp:
            smtp.quit()
        time.sleep(PACE)

    def message(self, smtp):
        """Sends a message; gives the session, if it goes on."""
        self.answered(smtp.mail("a@quota.test")[0], 250)
        granted = 0
        for number in range(self.dice.randint(1, 5)):
            time.sleep(self.pace)
            start = time.monotonic()
            code, _ = smtp.rcpt(f"r{number}@example.test")
            self.answers.append((start, time.monotonic(), code))
            if code != 250:
                self.answered(code, 451, 550)
                break
            granted += 1
        if code != 250:
            time.sleep(AFTER_FULL if code == 550 else AFTER_451)
        end = self.dice.random()
        if granted == 0 or end < 0.5:
            self.answered(smtp.rset()[0], 250)
        elif end < 0.9:
            self.answered(smtp.data(b"Subject: hello\r\n\r\nhello\r\n")[0], 250)
            self.accepted += granted
        else:
            smtp.close()
            return None
        return smtp

    @staticmethod
    def answered(code, *wanted):
        if code not in wanted:
            raise smtplib.SMTPException(f"an answer of {code}")


def outages(senders):
    """Of the senders at one mail host whose logins have room: when a first 451 came, and for how
    long nothing was let through, from the last recipient before it to the next one."""
    found, last, since, first = [], None, None, None
    for _, at, code in sorted(
        (answer for sender in senders for answer in sender.answers), key=lambda answer: answer[1]
    ):
        if code == 451 and first is None:
            first, since = at, last if last is not None else at
        elif code == 250:
            if first is not None:
                found.append((first, at - since))
            last, first = at, None
    if first is not None:
        found.append((first, float("inf")))
    return found


def refused(senders, start, end):
    """For how many seconds of this time recipients were answered 451, from the first to the rest
    after the last."""
    found = [
        at
        for sender in senders
        for _, at, code in sender.answers
        if code == 451 and start <= at < end
    ]
    return max(found) + AFTER_451 - min(found) if found else 0


def longest_wait(senders):
    return max(end - start for sender in senders for start, end, _ in sender.answers)


def end_all(senders):
    for sender in senders:
        sender.is_over = True
    for sender in senders:
        sender.join(timeout=60)
