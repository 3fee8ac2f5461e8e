{-# LANGUAGE BangPatterns #-}
-- Maps KIND LOOKS THREADS: as maps.cc, by GHC's stm: `table` is an array of 65,536 TVars, each with the list of its keys;
-- `tree` one TVar with a Data.Map.
module Main where
import Control.Concurrent
import Control.Concurrent.STM
import Control.Monad
import Data.Array
import Data.Bits
import qualified Data.Map.Strict as Map
import Data.Word
import GHC.Clock (getMonotonicTimeNSec)
import Numeric (showFFloat)
import System.Environment

keys, each, runsOfOne :: Int
keys = 65536
each = 60000
runsOfOne = 16

data Store = Store { get :: Int -> IO (Maybe Int), put :: Int -> IO (), remove :: Int -> IO (), move :: Int -> IO () }

type Table = Array Int (TVar [(Int, Int)])

home :: Int -> Int
home key = fromIntegral (((fromIntegral key :: Word64) * 0x9E3779B97F4A7C15) `shiftR` 48)

forced :: [(Int, Int)] -> ()
forced = foldr seq ()

getIn :: Table -> Int -> STM (Maybe Int)
getIn table key = lookup key <$> readTVar (table ! home key)

putIn :: Table -> Int -> Int -> STM ()
putIn table key value = do
  had <- readTVar (table ! home key)
  let has = (key, value) : filter ((/= key) . fst) had
  forced has `seq` writeTVar (table ! home key) has

removeIn :: Table -> Int -> STM (Maybe Int)
removeIn table key = do
  had <- readTVar (table ! home key)
  let found = lookup key had
      has = filter ((/= key) . fst) had
  case found of
    Nothing -> pure ()
    Just _ -> forced has `seq` writeTVar (table ! home key) has
  pure found

tables :: IO Store
tables = do
  first <- listArray (0, keys - 1) <$> replicateM keys (newTVarIO [])
  second <- listArray (0, keys - 1) <$> replicateM keys (newTVarIO [])
  let moveOne from to key = do
        found <- removeIn from key
        maybe (pure False) (\value -> putIn to key value >> pure True) found
  pure Store { get = atomically . getIn first, put = \key -> atomically (putIn first key key),
    remove = \key -> void (atomically (removeIn first key)),
    move = \key -> atomically (do { moved <- moveOne first second key; unless moved (void (moveOne second first key)) }) }

trees :: IO Store
trees = do
  first <- newTVarIO Map.empty
  second <- newTVarIO Map.empty
  let change tree f = do { had <- readTVar tree; let { !has = f had }; writeTVar tree has }
      moveOne from to key = do
        had <- readTVar from
        case Map.lookup key had of
          Nothing -> pure False
          Just value -> change from (Map.delete key) >> change to (Map.insert key value) >> pure True
  pure Store { get = \key -> Map.lookup key <$> readTVarIO first, put = \key -> atomically (change first (Map.insert key key)),
    remove = \key -> atomically (change first (Map.delete key)),
    move = \key -> atomically (do { moved <- moveOne first second key; unless moved (void (moveOne second first key)) }) }

makeAll :: Store -> Bool -> Int -> Word64 -> IO Int
makeAll store moves looks = go 0 0
  where
    go :: Int -> Int -> Word64 -> IO Int
    go !number !total !seed
      | number == each = pure total
      | moves = move store key >> go (number + 1) total next
      | chance `div` 2 < looks = get store key >>= \found -> go (number + 1) (total + maybe 0 id found) next
      | even chance = put store key >> go (number + 1) total next
      | otherwise = remove store key >> go (number + 1) total next
      where
        next = seed * 6364136223846793005 + 1442695040888963407
        drawn = fromIntegral ((next `shiftR` 33) `mod` fromIntegral (200 * keys)) :: Int
        key = drawn `mod` keys
        chance = drawn `div` keys

measured :: Store -> Bool -> Int -> Int -> Int -> IO Word64
measured store moves looks threads number = do
  dones <- forM [0 .. threads - 1] $ \it -> do
    done <- newEmptyMVar
    _ <- forkOn it $ do
      begun <- getMonotonicTimeNSec
      !_ <- makeAll store moves looks (fromIntegral (number * 64 + it))
      ended <- getMonotonicTimeNSec
      putMVar done (begun, ended)
    pure done
  spans <- mapM takeMVar dones
  pure (maximum (map snd spans) - minimum (map fst spans))

main :: IO ()
main = do
  [kind, said, count] <- getArgs
  let moves = said == "move"
      looks = if moves then 0 else read said
      threads = read count
      runs = runsOfOne `div` threads
  setNumCapabilities threads
  store <- if kind == "table" then tables else trees
  forM_ [0 .. keys `div` 2 - 1] $ \number -> put store (number * 12347 `mod` (keys `div` 2) * 2)
  spans <- mapM (measured store moves looks threads) [0 .. runs - 1]
  putStrLn (showFFloat (Just 1) (fromIntegral (sum spans) / fromIntegral (runs * threads * each) :: Double) "")
