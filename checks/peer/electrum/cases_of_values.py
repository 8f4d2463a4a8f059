"""Cases of what a host has to look after, as the link doesn't: values, terms, fees, scripts, what is given again."""
import electrum_side as el
import lnlink
from cases import case, close, opens, ready
from electrum.lnmsg import decode_msg, encode_msg
from electrum.lnutil import LOCAL
from keys import FUNDEE, FUNDER
from session import FEATURES, Session, name_of


async def refused_by_electrum(role, told, **options):
    """An opening that Electrum refuses. Our host doesn't look, as it would refuse some of them itself."""
    s = Session(role, **options)
    s.host.careful = False
    await s.open()
    assert s.chan is None and any(told in text for text in s.records.complaints()), (told, s.records.complaints())
    await s.close_down()
    return s


@case
async def values_that_electrum_refuses(role):
    """Config values that lnlink carries and a real peer doesn't take."""
    for told, options in (
            ('MUST set channel_reserve_satoshis', dict(channel_reserve_satoshis=0)),
            ('dust limit too low', dict(dust_limit_satoshis=353)),
            ('reserve too high', dict(channel_reserve_satoshis=10_001)),
            ('htlc_minimum_msat too high', dict(htlc_minimum_msat=1001)),
            ('max_accepted_htlcs too low', dict(max_accepted_htlcs=4)),
            ('to_self_delay too high', dict(to_self_delay=2017)),
            ('max_htlc_value_in_flight_msat is too small', dict(max_htlc_value_in_flight_msat=99_999_999))):
        s = await refused_by_electrum(role, told, **options)
    if role == FUNDER:
        for told, options in (
                ('feerate lower than min relay fee', dict(feerate=252)),
                ('funding_sat too low', dict(funding_sat=199_999, push_msat=0)),
                ('not sufficient for full fee payment', dict(push_msat=999_500_000))):
            s = await refused_by_electrum(role, told, **options)
    else:
        for told, depth in (('minimum depth too low', 0), ('minimum depth too high', 31)):
            s = await refused_by_electrum(role, told, minimum_depth=depth)
    return s


@case
async def channel_type_that_electrum_refuses(role):
    """As funder the record is the host's: none, and anchors, are refused. As fundee it repeats what was asked for."""
    if role == FUNDEE:
        return await opens(role)
    await refused_by_electrum(role, "hasn't sent the channel type", channel_type=None)
    # Electrum's own: as fundee it needs the feature.
    await refused_by_electrum(role, 'AttributeError', channel_type=None,
                              features=FEATURES & ~el.lnutil.LnFeatures.OPTION_CHANNEL_TYPE_OPT)
    return await refused_by_electrum(role, 'support', channel_type=b'\x10\x10\x00')


@case
async def terms_that_our_host_refuses(role):
    """What the link carries unseen, the host looks at in open_channel or accept_channel, and answers by an error."""
    name = 'accept_channel' if role == FUNDER else 'open_channel'
    changes = [dict(dust_limit_satoshis=353), dict(channel_reserve_satoshis=100), dict(to_self_delay=2017),
               dict(max_accepted_htlcs=4), dict(funding_pubkey=b'\2' + b'\xff' * 32),
               {name + '_tlvs': {'channel_type': {'type': b'\x10\x10\x00'}}}]
    if role == FUNDEE:
        changes += [dict(feerate_per_kw=252), dict(push_msat=999_500_000)]
    for change in changes:
        s = Session(role)

        def changed(raw):
            if name_of(raw) == name:
                raw = encode_msg(name, **{**decode_msg(raw)[1], **change})
            s.inbox.append(raw)

        s.from_electrum = changed
        await s.open()
        assert [what for what, _ in s.host.refusals] == [name], (change, s.host.refusals)
        assert s.chan is None and ('P', 'error') in s.trace
        await s.close_down()
    return s


@case
async def fee_of_peer_that_is_not_afforded(role):
    """Made by hand, as Electrum sends none: the link takes the update, our keys refuse the signature by 31."""
    s = await ready(role)
    id_ = s.chan.channel_id
    if role == FUNDER:
        assert s.host.take(encode_msg('update_fee', channel_id=id_, feerate_per_kw=900_000)) == 30
        return s
    assert s.host.take(encode_msg('update_fee', channel_id=id_, feerate_per_kw=900_000)) == 0
    assert s.host.take(encode_msg('commitment_signed', channel_id=id_, signature=bytes(64), num_htlcs=0,
                                  htlc_signature=b'')) == 31
    assert s.host.link.look().status == lnlink.Status.FAILED
    s.check_always()
    return s


@case
async def secret_outside_the_tree(role):
    """Made by hand: a secret that fits its point, but isn't of a tree with the one before (BOLT 3): our host says no."""
    s = Session(role)
    secret = el.os.urandom(32)
    point = el.ecc.ECPrivkey(secret).get_public_key_bytes(compressed=True)

    def changed(raw):
        if name_of(raw) == 'channel_ready':
            name, message = decode_msg(raw)
            raw = encode_msg(name, **{**message, 'next_per_commitment_point': point})
        s.inbox.append(raw)

    s.from_electrum = changed
    await s.open()
    await s.confirm()
    first, _ = s.chan.get_secret_and_point(LOCAL, 0)
    for told, number in ((first, 0), (secret, 32)):
        assert s.we_pay(1_000_000) == 0
        assert s.host.take(encode_msg('revoke_and_ack', channel_id=s.chan.channel_id, per_commitment_secret=told,
                                      next_per_commitment_point=point)) == number
    assert s.host.link.look().status == lnlink.Status.FAILED and list(s.host.disk.secrets) == [0]
    return s


@case
async def init_without_features(role):
    """Without data_loss_protect Electrum ends the connection at init."""
    s = Session(role, features=FEATURES & ~el.lnutil.LnFeatures.OPTION_DATA_LOSS_PROTECT_OPT)
    await s.greet()
    await s.settle()
    assert s.task.done() and any('OPTION_DATA_LOSS_PROTECT' in t for _, t in s.records.lines)
    return s


@case
async def adds_that_are_not_afforded(role):
    """An add whose fee or output the funder can't pay passes lnlink; Electrum disconnects. `affords` keeps from it."""
    s = await ready(role, push_msat=400_000_000 if role == FUNDER else 989_200_000)
    amount = 589_900_000 if role == FUNDER else 30_000_000
    assert not s.host.affords(amount_msat=amount)
    assert s.we_pay(amount) == 0
    await s.settle()
    assert s.task.done() and any('Not enough balance' in t for _, t in s.records.lines), s.records.complaints()
    return s


@case
async def fees_that_are_not_taken(role):
    """A feerate that isn't afforded, is below 253, or holds already: lnlink takes the command, Electrum disconnects."""
    if role == FUNDEE:
        s = await ready(role)
        assert s.host.command(lnlink.Fee(1000)) == 44       # the fee is the funder's
        return s
    for feerate, told in ((900_000, 'cannot afford'), (252, 'lower than min relay fee'),
                          (1000, 'commitment_signed without pending changes')):
        s = await ready(role)
        assert feerate < 253 or feerate == 1000 or not s.host.affords(feerate=feerate)
        await s.set_fee(feerate)
        await s.settle()
        assert s.task.done() and any(told in t for _, t in s.records.lines), s.records.complaints()
        await s.close_down()
    return s


@case
async def script_that_electrum_refuses(role):
    """A shutdown script of no known form: Electrum warns and disconnects."""
    s = await ready(role)
    s.host.command(lnlink.Shutdown(b'\x51\x51\x51'))
    await s.settle()
    assert s.task.done() and ('E', 'warning') in s.trace, s.trace[-4:]
    return s


@case
async def commands_without_a_connection(role):
    """Refused 47 without a connection, shutdown 45 with updates pending: given again, they pass."""
    s = Session(role)
    await s.open()
    await s.lose()
    s.confirm_us()
    assert s.host.refusals.pop() == ('Confirm', 47)
    await s.meet_again()
    await s.settle()
    await s.confirm()
    s.we_pay(10_000_000)
    assert s.shut_down() == 45
    await s.settle()
    await s.lose()
    assert s.shut_down() == 47
    await s.meet_again()
    await s.settle()
    assert s.host.refusals == [('Shutdown', 45), ('Shutdown', 47)]
    await close(s, by_us=True)
    return s
